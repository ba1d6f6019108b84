// Random loops as no translation makes them, the same for the same seed: cells are read that nobody wrote, rounds read what other
// rounds write, and names, offsets and numbers may be out of bounds.
use crate::plans::{text, Numbers};

struct Grower {
    numbers: Numbers,
    inputs: u64,
    counters: u64,
    regions: u64,
    rows: Vec<(&'static str, i64)>,
}

impl Grower {
    fn put(&mut self, word: &'static str, number: u64) {
        self.rows.push((word, number as i64));
    }

    // The number of a name: seldom one that is not in force.
    fn name(&mut self, count: u64) -> u64 {
        if self.numbers.below(200) == 0 { count } else { self.numbers.below(count.max(1)) }
    }

    fn offset(&mut self, depth: u64) {
        match self.numbers.below(if depth == 0 { 3 } else { 7 }) {
            0 => {
                let number = self.numbers.below(4);
                self.put("lit", number);
            }
            1 | 2 if self.counters > 0 => {
                let counter = self.name(self.counters);
                self.put("ctr", counter);
            }
            3 => {
                self.put("plus", 0);
                self.offset(depth - 1);
                self.offset(depth - 1);
            }
            4.. => {
                let word = *self.numbers.one_of(&["times", "over", "rest"]);
                let number = 1 + self.numbers.below(4);
                self.put(word, number);
                self.offset(depth - 1);
            }
            _ => self.put("lit", 0),
        }
    }

    fn value(&mut self, depth: u64) {
        match self.numbers.below(if depth == 0 { 4 } else { 7 }) {
            0 if self.inputs > 0 => {
                let input = self.name(self.inputs);
                self.put("in", input);
                self.offset(2);
            }
            1 | 2 if self.regions > 0 => {
                let region = self.name(self.regions);
                self.put("loc", region);
                self.offset(2);
            }
            4 => {
                self.put("neg", 0);
                self.value(depth - 1);
            }
            5 | 6 => {
                let word = *self.numbers.one_of(&["add", "sub", "mul", "div", "min", "max"]);
                self.put(word, 0);
                self.value(depth - 1);
                self.value(depth - 1);
            }
            _ => {
                let number = *self.numbers.one_of(&[0, 1, -1, 9, 2147483647, -2147483648]);
                self.rows.push(("lit", number));
            }
        }
    }

    fn set(&mut self) {
        self.put("set", 0);
        if self.regions == 0 || self.numbers.below(2) == 0 {
            self.put("out", 0);
        } else {
            let region = self.name(self.regions);
            self.put("loc", region);
        }
        self.offset(2);
        self.value(3);
    }

    fn command(&mut self, depth: u64) {
        match self.numbers.below(if depth == 0 { 1 } else { 7 }) {
            0 => self.set(),
            1 | 2 => {
                self.put("seq", 0);
                self.command(depth - 1);
                self.command(depth - 1);
            }
            3 | 4 => {
                let word = *self.numbers.one_of(&["for", "par", "par", "lanes"]);
                let rounds = if word == "lanes" { *self.numbers.one_of(&[2, 2, 2, 4, 4, 8, 16]) } else { 1 + self.numbers.below(4) };
                self.put(word, rounds);
                self.counters += 1;
                self.command(depth - 1);
                self.counters -= 1;
            }
            _ => {
                let cells = 8 + self.numbers.below(20);
                self.put("new", cells);
                self.regions += 1;
                self.command(depth - 1);
                self.regions -= 1;
            }
        }
    }
}

// The text of loops; most are accepted, some are refused for a name, an offset or a `lanes` inside another.
pub fn loops(seed: u64) -> Vec<u8> {
    let mut g = Grower { numbers: Numbers::new(seed), inputs: 0, counters: 0, regions: 0, rows: Vec::new() };
    g.inputs = g.numbers.below(3);
    g.put("loops", g.inputs);
    for _ in 0..=g.inputs {
        let cells = 8 + g.numbers.below(20);
        g.put("cells", cells);
    }
    g.command(6);
    text(&g.rows)
}

// Loops of so many rows, at least 6: one `set` after another.
pub fn long(rows: usize) -> Vec<u8> {
    let mut all = vec![("loops", 0), ("cells", 1)];
    while all.len() + 9 <= rows {
        all.extend([("seq", 0), ("set", 0), ("out", 0), ("lit", 0), ("lit", 5)]);
    }
    all.extend([("set", 0), ("out", 0), ("lit", 0)]);
    while all.len() + 1 < rows {
        all.push(("neg", 0));
    }
    all.push(("lit", 7));
    text(&all)
}
