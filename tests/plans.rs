// Random plans of every shape, the same for the same seed: terms grown from the type that they are to have, and terms of any types; texts
// damaged in one place, and texts of a given size. How many of the texts that a test has taken have vectors, or lanes.
use crate::reference::WORDS;

// A generator of numbers (xorshift with a multiplier).
pub struct Numbers(u64);

impl Numbers {
    pub fn new(seed: u64) -> Numbers {
        Numbers(seed.wrapping_mul(0x9e37_79b9_7f4a_7c15) | 1)
    }

    pub fn next(&mut self) -> u64 {
        self.0 ^= self.0 >> 12;
        self.0 ^= self.0 << 25;
        self.0 ^= self.0 >> 27;
        self.0.wrapping_mul(0x2545_f491_4f6c_dd1d) >> 16
    }

    pub fn below(&mut self, n: u64) -> u64 {
        self.next() % n
    }

    pub fn one_of<'a, T>(&mut self, list: &'a [T]) -> &'a T {
        &list[self.below(list.len() as u64) as usize]
    }
}

#[derive(Clone, PartialEq)]
enum Type {
    Number,
    Array(u64, Box<Type>),
    Pair(Box<Type>, Box<Type>),
    Vector(u64),
}

struct Grower {
    numbers: Numbers,
    inputs: Vec<Type>,
    variables: Vec<Type>,
    rows: Vec<(&'static str, i64)>,
}

impl Grower {
    fn put(&mut self, word: &'static str, number: u64) {
        self.rows.push((word, number as i64));
    }

    fn a_length(&mut self) -> u64 {
        *self.numbers.one_of(&[1, 1, 2, 2, 3, 4, 6])
    }

    // [13.19] A width, mostly a small one.
    fn a_width(&mut self) -> u64 {
        *self.numbers.one_of(&[2, 2, 2, 4, 4, 8, 16])
    }

    fn a_type(&mut self, depth: u64) -> Type {
        match self.numbers.below(if depth == 0 { 1 } else { 6 }) {
            0 => Type::Number,
            5 => Type::Vector(self.a_width()),
            1 => {
                let (first, second) = (self.a_type(depth - 1), self.a_type(depth - 1));
                Type::Pair(Box::new(first), Box::new(second))
            }
            _ => {
                let length = self.a_length();
                Type::Array(length, Box::new(self.a_type(depth - 1)))
            }
        }
    }

    fn spell(&mut self, t: &Type) {
        match t {
            Type::Number => self.put("num", 0),
            Type::Vector(w) => self.put("vec", *w),
            Type::Array(n, element) => {
                self.put("arr", *n);
                self.spell(element);
            }
            Type::Pair(first, second) => {
                self.put("two", 0);
                self.spell(first);
                self.spell(second);
            }
        }
    }

    // An input or a variable of the type, if there is one.
    fn name(&mut self, t: &Type) -> bool {
        let mut names: Vec<(&'static str, u64)> = Vec::new();
        for (k, input) in self.inputs.iter().enumerate() {
            if input == t {
                names.push(("in", k as u64));
            }
        }
        for (d, variable) in self.variables.iter().rev().enumerate() {
            if variable == t {
                names.push(("var", d as u64));
            }
        }
        if names.is_empty() {
            return false;
        }
        let (word, number) = *self.numbers.one_of(&names);
        self.put(word, number);
        true
    }

    // The smallest term of a type.
    fn leaf(&mut self, t: &Type) {
        if self.name(t) {
            return;
        }
        match t {
            Type::Number => {
                let values = [0, 1, -1, 7, -7, 2147483647, -2147483648];
                let value = *self.numbers.one_of(&values);
                self.rows.push(("lit", value));
            }
            Type::Pair(first, second) => {
                self.put("pair", 0);
                self.leaf(first);
                self.leaf(second);
            }
            Type::Array(n, element) => self.map_over(*n, element, 0),
            Type::Vector(w) => self.first_vector(*w),
        }
    }

    // The first vector of the 48 numbers of input 0, which every width divides.
    fn first_vector(&mut self, w: u64) {
        self.put("idx", 0);
        self.put("asvec", w);
        self.put("in", 0);
    }

    // A vector: a map over the lanes of another, or one of the vectors of an array of numbers.
    fn made_vector(&mut self, w: u64, budget: u64) {
        match self.numbers.below(3) {
            0 | 1 if self.variables.len() < 15 => {
                self.put("mapvec", 0);
                self.term(&Type::Vector(w), budget / 2);
                self.variables.push(Type::Number);
                self.term(&Type::Number, budget / 2);
                self.variables.pop();
            }
            _ => {
                let length = self.a_length();
                let k = self.numbers.below(length);
                self.put("idx", k);
                self.put("asvec", w);
                self.term(&Type::Array(length * w, Box::new(Type::Number)), budget);
            }
        }
    }

    // A map of that length: over any array of that length that is at hand, or over the first group of an input.
    fn map_over(&mut self, n: u64, element: &Type, budget: u64) {
        let word = *self.numbers.one_of(&["mappar", "mapseq"]);
        self.put(word, 0);
        let at_hand: Vec<Type> =
            self.inputs.iter().chain(&self.variables).filter(|t| matches!(t, Type::Array(m, _) if *m == n)).cloned().collect();
        let inner = if at_hand.is_empty() {
            self.first_group(n);
            Type::Number
        } else {
            let array = self.numbers.one_of(&at_hand).clone();
            self.term(&array, budget / 2);
            let Type::Array(_, inner) = array else { unreachable!() };
            *inner
        };
        self.variables.push(inner);
        self.term(element, budget / 2);
        self.variables.pop();
    }

    // The first n numbers of input 0 or 1, which have 48 and 60: refused where n divides neither.
    fn first_group(&mut self, n: u64) {
        self.put("idx", 0);
        self.put("split", n);
        self.put("in", if 48 % n == 0 { 0 } else { 1 });
    }

    fn term(&mut self, t: &Type, budget: u64) {
        if budget == 0 || self.rows.len() > 200 {
            return self.leaf(t);
        }
        let rest = budget - 1;
        match self.numbers.below(10) {
            0 => self.leaf(t),
            1 => {
                let other = self.a_type(1);
                let first = self.numbers.below(2) == 0;
                self.put(if first { "fst" } else { "snd" }, 0);
                let whole = if first {
                    Type::Pair(Box::new(t.clone()), Box::new(other))
                } else {
                    Type::Pair(Box::new(other), Box::new(t.clone()))
                };
                self.term(&whole, rest);
            }
            2 => {
                let length = self.a_length();
                let k = self.numbers.below(length);
                self.put("idx", k);
                self.term(&Type::Array(length, Box::new(t.clone())), rest);
            }
            3 if self.variables.len() < 14 => self.reduction(t, rest),
            4 if *t == Type::Number => {
                let width = self.a_width();
                let k = self.numbers.below(width);
                self.put("at", k);
                self.term(&Type::Vector(width), rest);
            }
            _ => self.made(t, rest),
        }
    }

    fn reduction(&mut self, t: &Type, budget: u64) {
        let (length, element) = (self.a_length(), self.a_type(1));
        self.put("redseq", 0);
        self.term(t, budget / 3);
        self.term(&Type::Array(length, Box::new(element.clone())), budget / 3);
        self.variables.push(element);
        self.variables.push(t.clone());
        self.term(t, budget / 3);
        self.variables.pop();
        self.variables.pop();
    }

    // A term whose first word makes the type.
    fn made(&mut self, t: &Type, budget: u64) {
        match t {
            Type::Number => {
                let word = *self.numbers.one_of(&["neg", "add", "sub", "mul", "div", "min", "max"]);
                self.put(word, 0);
                self.term(t, budget / 2);
                if word != "neg" {
                    self.term(t, budget / 2);
                }
            }
            Type::Pair(first, second) => {
                self.put("pair", 0);
                self.term(first, budget / 2);
                self.term(second, budget / 2);
            }
            Type::Array(n, element) => self.made_array(*n, element, budget),
            Type::Vector(w) => self.made_vector(*w, budget),
        }
    }

    fn made_array(&mut self, n: u64, element: &Type, budget: u64) {
        match (self.numbers.below(4), element) {
            (0, Type::Pair(first, second)) => {
                self.put("zip", 0);
                self.term(&Type::Array(n, first.clone()), budget / 2);
                self.term(&Type::Array(n, second.clone()), budget / 2);
            }
            (1, Type::Array(m, inner)) => {
                self.put("split", *m);
                self.term(&Type::Array(n * m, inner.clone()), budget);
            }
            (1, Type::Vector(w)) => {
                self.put("asvec", *w);
                self.term(&Type::Array(n * w, Box::new(Type::Number)), budget);
            }
            (1, Type::Number) if n % 2 == 0 => {
                let width = self.a_width();
                let width = if n % width == 0 { width } else { 2 };
                self.put("asscal", 0);
                self.term(&Type::Array(n / width, Box::new(Type::Vector(width))), budget);
            }
            (2, _) => {
                let groups = *self.numbers.one_of(&[1, 2, 3]);
                let groups = if n % groups == 0 { groups } else { 1 };
                self.put("join", 0);
                let group = Type::Array(n / groups, Box::new(element.clone()));
                self.term(&Type::Array(groups, Box::new(group)), budget);
            }
            _ if self.variables.len() < 15 => self.map_over(n, element, budget),
            _ => self.leaf(&Type::Array(n, Box::new(element.clone()))),
        }
    }
}

// ---- terms of any types

// Words with several operands: how many, and the variables that are bound in the last.
const SEVERAL: [(&str, usize, usize); 7] =
    [("zip", 2, 0), ("pair", 2, 0), ("add", 2, 0), ("mappar", 2, 1), ("mapseq", 2, 1), ("mapvec", 2, 1), ("redseq", 3, 2)];

impl Grower {
    fn any_name(&mut self) {
        match self.numbers.below(3) {
            0 if !self.variables.is_empty() => {
                let variable = self.numbers.below(self.variables.len() as u64);
                self.put("var", variable);
            }
            1 => self.put("lit", 7),
            _ => {
                let input = self.numbers.below(self.inputs.len() as u64);
                self.put("in", input);
            }
        }
    }

    // Every row is due and its number one that the word may have; whether the types fit is left to chance.
    fn any_term(&mut self, depth: u64) {
        let choice = if depth == 0 || self.variables.len() > 14 { 15 } else { self.numbers.below(16) as usize };
        match choice {
            0..=6 => {
                let (word, operands, bound) = SEVERAL[choice];
                self.put(word, 0);
                (1..operands).for_each(|_| self.any_term(depth - 1));
                let before = self.variables.len();
                self.variables.resize(before + bound, Type::Number);
                self.any_term(depth - 1);
                self.variables.truncate(before);
            }
            7..=13 => {
                let (length, width, lane) = (self.a_length(), self.a_width(), *self.numbers.one_of(&[0, 1, 2, 3, 4, 15]));
                let ones =
                    [("neg", 0), ("split", length), ("join", 0), ("idx", length - 1), ("asvec", width), ("asscal", 0), ("at", lane)];
                let (word, number) = ones[choice - 7];
                self.put(word, number);
                self.any_term(depth - 1);
            }
            _ => self.any_name(),
        }
    }
}

pub fn text(rows: &[(&'static str, i64)]) -> Vec<u8> {
    rows.iter().map(|(word, number)| format!("{word},{number}\n")).collect::<String>().into_bytes()
}

// A plan's text; most are accepted, some are refused by their size or for a `lanes` inside another.
pub fn plan(seed: u64) -> Vec<u8> {
    let mut g = Grower { numbers: Numbers::new(seed), inputs: Vec::new(), variables: Vec::new(), rows: Vec::new() };
    g.inputs = vec![Type::Array(48, Box::new(Type::Number)), Type::Array(60, Box::new(Type::Number))];
    for _ in 0..g.numbers.below(4) {
        let input = g.a_type(3);
        g.inputs.push(input);
    }
    g.put("plan", g.inputs.len() as u64);
    for input in g.inputs.clone() {
        g.spell(&input);
    }
    let (whole, budget) = (g.a_type(3), g.numbers.below(60));
    g.term(&whole, budget);
    text(&g.rows)
}

// The same, damaged in one place.
pub fn damaged(seed: u64) -> Vec<u8> {
    damage(&plan(seed), &mut Numbers::new(seed ^ 0x5555))
}

// A plan's text of any types; most are refused by 7.
pub fn untyped(seed: u64) -> Vec<u8> {
    let mut g = Grower { numbers: Numbers::new(seed ^ 0x7777), inputs: Vec::new(), variables: Vec::new(), rows: Vec::new() };
    g.inputs = vec![Type::Array(16, Box::new(Type::Number)), Type::Vector(4), Type::Array(2, Box::new(Type::Vector(2)))];
    let more = g.a_type(2);
    g.inputs.push(more);
    g.put("plan", g.inputs.len() as u64);
    for input in g.inputs.clone() {
        g.spell(&input);
    }
    let depth = 1 + g.numbers.below(5);
    g.any_term(depth);
    text(&g.rows)
}

// A text damaged in one place: a line lost, doubled or exchanged, a number, a word or a byte changed.
pub fn damage(whole: &[u8], numbers: &mut Numbers) -> Vec<u8> {
    let mut lines: Vec<Vec<u8>> = whole.split_inclusive(|b| *b == 10).map(|l| l.to_vec()).collect();
    let at = numbers.below(lines.len() as u64) as usize;
    match numbers.below(6) {
        0 => drop(lines.remove(at)),
        1 => lines.insert(at, lines[at].clone()),
        2 => {
            let other = numbers.below(lines.len() as u64) as usize;
            lines.swap(at, other);
        }
        3 => {
            let comma = lines[at].iter().position(|b| *b == b',').unwrap();
            lines[at].truncate(comma + 1);
            let number = *numbers.one_of(&["0", "1", "2", "3", "4", "5", "8", "15", "16", "32", "-1", "4096", "4097", "-0", "01", "2147483648"]);
            lines[at].extend(number.bytes().chain([10]));
        }
        4 => {
            let comma = lines[at].iter().position(|b| *b == b',').unwrap();
            let word = other_word(&lines[at][..comma], numbers);
            lines[at].splice(..comma, word.bytes());
        }
        _ => {
            let byte = numbers.below(lines[at].len() as u64) as usize;
            lines[at][byte] = *numbers.one_of(b"a0,-\n z9");
        }
    }
    lines.concat()
}

// Two words each: what the one is for arrays, the other is for vectors.
const TWINS: [(&str, &str); 6] =
    [("arr", "vec"), ("split", "asvec"), ("join", "asscal"), ("mappar", "mapvec"), ("idx", "at"), ("par", "lanes")];

// A word in place of this one: mostly that of arrays for that of vectors, or the other way about; else any.
fn other_word(word: &[u8], numbers: &mut Numbers) -> &'static str {
    let mut twins = TWINS.iter().flat_map(|(one, other)| [(*one, *other), (*other, *one)]);
    match twins.find(|(one, _)| one.as_bytes() == word) {
        Some((_, other)) if numbers.below(4) > 0 => other,
        _ => *numbers.one_of(&WORDS),
    }
}

// A text of so many bytes: copies of a line, the last of them with zeros behind its number.
pub fn filled(size: usize, line: &str) -> Vec<u8> {
    let mut text = line.repeat(size / line.len()).into_bytes();
    text.pop();
    text.resize(size - 1, b'0');
    text.push(b'\n');
    text
}

// How many texts a test has taken, and how many of them have a row with one of some words.
pub struct Share {
    words: &'static [&'static str],
    all: u64,
    with: u64,
}

impl Share {
    // [18.1], [18.3] Plans with vectors.
    pub fn of_vectors() -> Share {
        Share { words: &["vec", "asvec", "asscal", "mapvec", "at"], all: 0, with: 0 }
    }

    // [18.9] Loops with lanes.
    pub fn of_lanes() -> Share {
        Share { words: &["lanes"], all: 0, with: 0 }
    }

    pub fn take(&mut self, text: &[u8]) {
        let named = |line: &[u8]| self.words.iter().any(|word| line.strip_prefix(word.as_bytes()).is_some_and(|rest| rest.starts_with(b",")));
        self.add(text.split(|b| *b == 10).any(named));
    }

    // One text more, of which it is known.
    pub fn add(&mut self, with: bool) {
        self.with += with as u64;
        self.all += 1;
    }

    // How many have such a row. One in four has to, so that no change of the texts leaves them out unseen.
    pub fn count(&self) -> u64 {
        assert!(self.with > 0 && 4 * self.with >= self.all, "only {} of {} texts have one of {:?}", self.with, self.all, self.words);
        self.with
    }
}
