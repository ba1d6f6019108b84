// Random words texts, whole and damaged in every way, beside the second implementation: each is put to the seven entries for C that take
// one ([16.7]), with plans and loops in its words, whole and damaged. What is lent lies inside a longer slice; all of it, margins
// included, is compared with what the second implementation leaves there, which on a refusal is what was lent ([10.17]). The plain
// entries are asked of the same texts, and answer in the built-in words. Each word of the built-in words, of German ones and of every
// random words text is searched for, as it is and changed ([17.1]).
//
//   words COUNT
use std::collections::BTreeMap;
use std::fmt::Debug;

#[allow(dead_code)]
mod commands;
#[allow(dead_code)]
mod entries;
#[allow(dead_code)]
mod plans;
#[allow(dead_code)]
mod reference;
#[allow(dead_code)]
mod wording;

use plans::Numbers;
use reference::WORDS;
use wording::{most, Own};

const MARGIN: usize = 16;
const LIT: usize = 6;

// ---- words texts

// So many letters; now and then the last or the first of the alphabet only.
fn letters(numbers: &mut Numbers, count: usize) -> Vec<u8> {
    let among = *numbers.one_of(&[&b"abcdefghijklmnopqrstuvwxyz"[..], b"az"]);
    (0..count).map(|_| *numbers.one_of(among)).collect()
}

fn a_kind(numbers: &mut Numbers) -> usize {
    numbers.below(WORDS.len() as u64) as usize
}

// Own words, no two alike, each of which has as many letters as `count` says for its kind.
fn distinct(numbers: &mut Numbers, count: impl Fn(usize, &mut Numbers) -> usize) -> Own {
    let mut own = Own::new();
    while own.len() < WORDS.len() {
        let length = count(own.len(), numbers);
        let word = letters(numbers, length);
        if !own.contains(&word) {
            own.push(word);
        }
    }
    own
}

// The built-in words in another order: `lit` gets one that is short enough.
fn permuted(numbers: &mut Numbers) -> Own {
    let mut own = wording::built_in();
    for place in (1..own.len()).rev() {
        own.swap(place, numbers.below(place as u64 + 1) as usize);
    }
    short_lit(own, numbers)
}

// The words exchanged so that that of `lit` is short enough.
fn short_lit(mut own: Own, numbers: &mut Numbers) -> Own {
    let short: Vec<usize> = (0..own.len()).filter(|kind| own[*kind].len() <= most(LIT)).collect();
    own.swap(LIT, *numbers.one_of(&short));
    own
}

// Words each of which begins the next: a, aa, .. and b, bb, ..; some of them are another's beginning and none is another.
fn beginnings(numbers: &mut Numbers) -> Own {
    let mut own: Own = (0..WORDS.len()).map(|i| vec![b'a' + (i / 8) as u8; 1 + i % 8]).collect();
    own.rotate_left(a_kind(numbers));
    short_lit(own, numbers)
}

// [16.2] Own words that are accepted.
fn good(numbers: &mut Numbers) -> Own {
    match numbers.below(6) {
        0 => wording::built_in(),
        1 => permuted(numbers),
        2 => beginnings(numbers),
        3 => distinct(numbers, |kind, _| most(kind)),
        4 => {
            let mut own = wording::built_in();
            let kind = a_kind(numbers);
            while { own[kind] = letters(numbers, most(kind)); own.iter().filter(|word| **word == own[kind]).count() > 1 } {}
            own
        }
        _ => distinct(numbers, |kind, numbers| 1 + numbers.below(most(kind) as u64) as usize),
    }
}

// What is done to one line. The line that has been changed is accepted no more.
const LINE_DAMAGES: [(&str, fn(&mut Vec<u8>, &mut Numbers)); 20] = [
    ("a carriage return", |line, _| insert(line, line.len() - 1, b"\r")),
    ("a blank at the end", |line, _| insert(line, line.len() - 1, b" ")),
    ("a blank at the beginning", |line, _| insert(line, 0, b" ")),
    ("a blank behind the comma", |line, _| insert(line, comma(line) + 1, b" ")),
    ("a blank before the comma", |line, _| insert(line, comma(line), b" ")),
    ("a capital", |line, numbers| *own_letter(line, numbers) -= 32),
    ("a capital in the built-in word", |line, _| line[0] -= 32),
    ("a digit", |line, numbers| *own_letter(line, numbers) = b'7'),
    ("the byte before a", |line, numbers| *own_letter(line, numbers) = b'a' - 1),
    ("the byte behind z", |line, numbers| *own_letter(line, numbers) = b'z' + 1),
    ("a byte above 127", |line, numbers| *own_letter(line, numbers) = 128 + numbers.below(128) as u8),
    ("a byte 0", |line, numbers| *own_letter(line, numbers) = 0),
    ("letters too many", |line, numbers| long_word(line, numbers)),
    ("an empty own word", |line, _| cut(line, comma(line) + 1..line.len() - 1)),
    ("a second comma", |line, _| insert(line, line.len() - 1, b",")),
    ("two commas together", |line, _| insert(line, comma(line), b",")),
    ("no comma", |line, _| cut(line, comma(line)..comma(line) + 1)),
    ("an unknown built-in word", |line, _| line[0] = if line[0] == b'q' { b'x' } else { b'q' }),
    ("a built-in word cut short", |line, _| cut(line, 0..1)),
    ("no built-in word", |line, _| cut(line, 0..comma(line))),
];

fn comma(line: &[u8]) -> usize {
    line.iter().position(|byte| *byte == b',').unwrap()
}

fn insert(line: &mut Vec<u8>, place: usize, bytes: &[u8]) {
    line.splice(place..place, bytes.iter().copied());
}

fn cut(line: &mut Vec<u8>, bytes: std::ops::Range<usize>) {
    line.drain(bytes);
}

fn unended(line: &mut Vec<u8>) {
    line.truncate(line.len() - 1);
}

fn own_letter<'a>(line: &'a mut [u8], numbers: &mut Numbers) -> &'a mut u8 {
    let (first, end) = (comma(line) + 1, line.len() - 1);
    &mut line[first + numbers.below((end - first) as u64) as usize]
}

// Nine letters and more for the own word; for that of `lit` four and more.
fn long_word(line: &mut Vec<u8>, numbers: &mut Numbers) {
    let most = if line.starts_with(b"lit,") { 3 } else { 8 };
    line.truncate(comma(line) + 1);
    let count = most + 1 + numbers.below(3) as usize;
    line.extend(letters(numbers, count).into_iter().chain([b'\n']));
}

// What is done to the lines as a whole.
const TEXT_DAMAGES: [(&str, fn(&mut Vec<Vec<u8>>, &mut Numbers)); 17] = [
    ("four letters and more for lit", |lines, numbers| long_word(&mut lines[LIT], numbers)),
    ("two lines exchanged", |lines, numbers| {
        let (one, other) = two_places(numbers);
        lines.swap(one, other);
    }),
    ("a line dropped", |lines, numbers| drop(lines.remove(a_kind(numbers)))),
    ("no words of vectors", |lines, _| lines.truncate(kind("vec"))),
    ("a line doubled", |lines, numbers| {
        let place = a_kind(numbers);
        lines.insert(place, lines[place].clone());
    }),
    ("a line added", |lines, _| lines.push(b"plan,other\n".to_vec())),
    ("an empty line", |lines, numbers| lines.insert(a_kind(numbers), b"\n".to_vec())),
    ("an empty line at the end", |lines, _| lines.push(b"\n".to_vec())),
    ("a byte behind the end", |lines, numbers| lines.push(vec![*numbers.one_of(b" \r\0a,")])),
    ("the last byte missing", |lines, _| unended(lines.last_mut().unwrap())),
    ("byte 10 missing in the middle", |lines, numbers| unended(&mut lines[numbers.below(WORDS.len() as u64 - 1) as usize])),
    ("a built-in word twice", |lines, numbers| {
        let (one, other) = two_places(numbers);
        let own = lines[one][comma(&lines[one])..].to_vec();
        lines[one] = [&lines[other][..comma(&lines[other])], &own].concat();
    }),
    ("nothing", |lines, _| lines.clear()),
    ("cut off", |lines, numbers| lines.truncate(a_kind(numbers))),
    ("the text twice", |lines, _| lines.extend(lines.clone())),
    ("more bytes than the longest", |lines, numbers| {
        let more = wording::LONGEST + 1 + numbers.below(700) as usize;
        while lines.concat().len() < more {
            lines.push(lines[a_kind(numbers)].clone());
        }
    }),
    ("bytes without a line", |lines, numbers| *lines = vec![vec![b'a'; 600 + numbers.below(20) as usize]]),
];

fn two_places(numbers: &mut Numbers) -> (usize, usize) {
    let (one, count) = (a_kind(numbers), WORDS.len());
    (one, (one + 1 + numbers.below(count as u64 - 1) as usize) % count)
}

fn kind(word: &str) -> usize {
    WORDS.iter().position(|listed| *listed == word).unwrap()
}

// One own word given to a second row as well; it is one that `lit` may have where `lit` is that row.
fn doubled(own: &mut Own, numbers: &mut Numbers) {
    let (mut one, mut other) = two_places(numbers);
    if other == LIT && own[one].len() > most(LIT) {
        (one, other) = (other, one);
    }
    own[other] = own[one].clone();
}

// A words text, what was done to it, how an empty plan is answered under it, and the own words that its plans and loops are put into. The
// text lies in front of the lines that it lacks, or of one too many, which are not lent: if they were read, a text that lacks its end would
// seem whole, or a whole one too long.
struct Worded {
    memory: Vec<u8>,
    bytes: usize,
    what: &'static str,
    answer: &'static str,
    own: Own,
}

impl Worded {
    fn text(&self) -> &[u8] {
        &self.memory[..self.bytes]
    }
}

fn words_text(numbers: &mut Numbers) -> Worded {
    let mut own = good(numbers);
    let choice = numbers.below(20);
    let (mut what, mut answer) = ("nothing done", "no,1,0");
    // 17 alone, or with a line that is 16.
    if choice >= 16 {
        doubled(&mut own, numbers);
        (what, answer) = ("a word twice", "no,17,0");
    }
    let whole: Vec<Vec<u8>> = wording::text(&own).split_inclusive(|byte| *byte == b'\n').map(|line| line.to_vec()).collect();
    let mut text = whole.clone();
    if (8..12).contains(&choice) || choice == 18 {
        let (name, damage) = numbers.one_of(&LINE_DAMAGES);
        damage(&mut text[a_kind(numbers)], numbers);
        (what, answer) = (name, "no,16,0");
    }
    if (12..16).contains(&choice) || choice == 19 {
        let (name, damage) = numbers.one_of(&TEXT_DAMAGES);
        damage(&mut text, numbers);
        (what, answer) = (name, "no,16,0");
    }
    let bytes = text.concat();
    let behind = whole[text.len().min(whole.len() - 1)..].concat();
    let behind = if bytes.ends_with(b"\n") { behind } else { [b"\n", &behind[..]].concat() };
    Worded { memory: [&bytes[..], &behind].concat(), bytes: bytes.len(), what, answer, own }
}

// ---- the seven entries

// How often each answer was given: by the number of the refusal, or 0.
struct Tally(BTreeMap<u32, u64>);

impl Tally {
    // Compares two answers and what they left in lent memory, margins included.
    fn same<T: PartialEq + Debug>(&mut self, entry: &str, of: (&str, Option<&[u8]>, &[u8]), found: (String, T), wanted: (String, T)) {
        if found != wanted {
            println!("{entry}, {}: {}, but {}", of.0, found.0, wanted.0);
            println!("words {:?}, text\n{}", of.1.map(String::from_utf8_lossy), String::from_utf8_lossy(of.2));
            println!("{}", if found.1 == wanted.1 { "what was lent is alike" } else { "what was lent differs" });
            std::process::exit(1);
        }
        let number = found.0.strip_prefix("no,").map_or(0, |rest| rest.split(',').next().unwrap().parse().unwrap());
        *self.0.entry(number).or_default() += 1;
    }

    fn refused(&self, due: &[u32]) -> String {
        for number in due {
            assert!(self.0.contains_key(number), "no refusal {number} among {:?}", self.0);
        }
        let refused: Vec<String> = self.0.iter().filter(|(n, _)| **n > 0).map(|(n, count)| format!("{count} by {n}")).collect();
        format!("refused {}", refused.join(", "))
    }

    fn counts(&self, due: &[u32]) -> String {
        format!("{} done, {}", self.0.get(&0).unwrap_or(&0), self.refused(due))
    }

    // The check and the translation of a plan, into a text of so many bytes.
    fn plan(&mut self, what: &str, words: Option<&[u8]>, plan: &[u8], bytes: usize) {
        let of = (what, words, plan);
        let check = |answer: String| (answer.trim_end().replace("ok", "0"), ());
        self.same("check_plan", of, check(entries::check_plan_in(words, plan)), check(reference::reply_in(words, &["plan".into()], plan)));
        let (mut found, mut wanted) = (vec![b'?'; bytes + 2 * MARGIN], vec![b'?'; bytes + 2 * MARGIN]);
        let answer = entries::translate_in(words, plan, &mut found[MARGIN..MARGIN + bytes]);
        let other = reference::translate_in(words, plan, &mut wanted[MARGIN..MARGIN + bytes]);
        self.same("translate", of, (answer, found), (other, wanted));
    }

    // The check, the need, reading into a table of so many rows, and the run on a store of so many bytes.
    fn loops(&mut self, what: &str, words: Option<&[u8]>, loops: &[u8], rows: (usize, usize), order: u32, bytes: usize) {
        let of = (what, words, loops);
        self.same("check_loops", of, (entries::check_loops_in(words, loops), ()), (reference::writes_in(words, loops), ()));
        self.same("need", of, (entries::need_in(words, loops), ()), (reference::need_in(words, loops), ()));
        let table = || (vec![255u8; rows.0 + 2 * MARGIN], vec![-9i32; rows.1 + 2 * MARGIN]);
        let (mut found, mut wanted) = (table(), table());
        let (k, n) = (MARGIN..MARGIN + rows.0, MARGIN..MARGIN + rows.1);
        let answer = entries::read_loops_in(words, loops, &mut found.0[k.clone()], &mut found.1[n.clone()]);
        let other = reference::read_loops_in(words, loops, &mut wanted.0[k], &mut wanted.1[n]);
        self.same("read_loops", of, (answer, found), (other, wanted));
        let store: Vec<u8> = (0..bytes + 2 * MARGIN).map(|i| (i * 7 + 3) as u8).collect();
        let (mut found, mut wanted) = (store.clone(), store);
        let answer = entries::run_in(words, loops, order, &mut found[MARGIN..MARGIN + bytes]);
        let other = reference::run_text_in(words, loops, order, &mut wanted[MARGIN..MARGIN + bytes]);
        self.same("run", of, (answer, found), (other, wanted));
    }

    // The search for a word; what is told of it is compared as a whole number, and handed on.
    fn look_up(&mut self, what: &str, words: Option<&[u8]>, word: &[u8]) -> String {
        let answer = entries::look_up_in(words, word);
        self.same("look_up", (what, words, word), (answer.clone(), ()), (reference::look_up_in(words, word), ()));
        answer
    }
}

// A text as it is, damaged, in the words given, in these and damaged, and nothing.
fn texts(built_in: &[u8], own: &Own, numbers: &mut Numbers) -> Vec<Vec<u8>> {
    let worded = wording::worded(built_in, own);
    let broken = wording::worded(&plans::damage(built_in, numbers), own);
    let mut list = vec![worded.clone(), broken, plans::damage(&worded, numbers)];
    match numbers.below(4) {
        0 => list.push(built_in.to_vec()),
        1 => list.push(Vec::new()),
        _ => {}
    }
    list
}

// [16.3], [16.9] A plan in own words is made into the loops of the same plan in the built-in words, in own words; read back, the loops
// are the same rows. Both are the library's. Whether the plan is translated.
fn same_rows(worded: &Worded, plan: &[u8]) -> bool {
    let words = Some(worded.text());
    let made = |words: Option<&[u8]>, plan: &[u8]| {
        let mut lent = vec![0; 65536];
        let bytes = entries::translate_in(words, plan, &mut lent).parse::<usize>().ok()?;
        Some(lent[..bytes].to_vec())
    };
    let read = |words: Option<&[u8]>, loops: &[u8]| {
        let (mut kinds, mut numbers) = (vec![0; 4096], vec![0; 4096]);
        (entries::read_loops_in(words, loops, &mut kinds, &mut numbers), kinds, numbers)
    };
    let (built_in, own) = (made(None, plan), made(words, &wording::worded(plan, &worded.own)));
    assert_eq!(own, built_in.as_ref().map(|loops| wording::worded(loops, &worded.own)), "loops of the same rows");
    let (Some(built_in), Some(own)) = (built_in, own) else { return false };
    assert!(read(words, &own) == read(None, &built_in), "rows read back");
    true
}

// [16.9] The longest words, and the longest texts.
fn longest(words: &mut Tally) {
    let mut numbers = Numbers::new(3);
    let own = distinct(&mut numbers, |kind, _| most(kind));
    let text = wording::text(&own);
    assert_eq!(text.len(), wording::LONGEST, "the longest words text that is accepted");
    let plan = |lines: usize| format!("plan,0\n{}{}", "add,0\n".repeat(lines / 2 - 1), "lit,-2147483648\n".repeat(lines / 2)).into_bytes();
    for lines in [254, 256, 258] {
        words.plan("long plans", Some(&text), &wording::worded(&plan(lines), &own), 65536);
        words.plan("long plans", Some(&text), &plan(lines), 65536);
    }
    for rows in [4095, 4096, 4097] {
        let loops = wording::worded(&commands::long(rows), &own);
        words.loops("long loops", Some(&text), &loops, (4096, 4096), 0, 400);
    }
    for size in [4096, 4097, 65536, 65537] {
        let loops = plans::filled(size, "lit,-2147483648\n");
        words.loops("filled loops", Some(&text), &wording::worded(&loops, &own), (4096, 4096), 0, 400);
        words.plan("filled plans", Some(&text), &wording::worded(&loops, &own), 65536);
    }
}

// ---- the search for a word

// What is searched for: its name, how the search is to end for some word, and how it is made from the word of a kind.
type Change = (&'static str, &'static [&'static str], fn(&[u8], usize) -> Vec<u8>);

const CHANGES: [Change; 27] = [
    ("the word", &["hit"], |word, _| word.to_vec()),
    ("the built-in word", &["hit", "miss"], |_, kind| WORDS[kind].into()),
    ("its last letter gone", &["hit", "miss"], |word, _| word[..word.len() - 1].to_vec()),
    ("its first letter gone", &["hit", "miss"], |word, _| word[1..].to_vec()),
    ("its last letter twice", &["hit", "miss"], |word, _| [word, &word[word.len() - 1..]].concat()),
    ("one letter more", &["miss"], |word, _| [word, b"q"].concat()),
    ("a letter in front", &["miss"], |word, _| [b"q", word].concat()),
    ("another last letter", &["miss"], |word, _| [&word[..word.len() - 1], b"q"].concat()),
    ("a blank behind", &["miss"], |word, _| [word, b" "].concat()),
    ("a blank in front", &["miss"], |word, _| [b" ", word].concat()),
    ("a comma behind", &["miss"], |word, _| [word, b","].concat()),
    ("a whole line", &["miss"], |word, _| [word, b",0\n"].concat()),
    ("in capitals", &["miss"], |word, _| word.to_ascii_uppercase()),
    ("the first letter a capital", &["miss"], |word, _| [&[word[0] - 32], &word[1..]].concat()),
    ("nothing", &["miss"], |_, _| Vec::new()),
    ("a byte 0 behind", &["miss"], |word, _| [word, b"\0"].concat()),
    ("a byte 255 behind", &["miss"], |word, _| [word, b"\xff"].concat()),
    ("a byte 0 for the last letter", &["miss"], |word, _| [&word[..word.len() - 1], b"\0"].concat()),
    ("a byte 255 for the last letter", &["miss"], |word, _| [&word[..word.len() - 1], b"\xff"].concat()),
    ("8 bytes with blanks", &["hit", "miss"], |word, _| longer(word, 8, b" ")),
    ("9 bytes with blanks", &["miss"], |word, _| longer(word, 9, b" ")),
    ("19 bytes with blanks", &["miss"], |word, _| longer(word, 19, b" ")),
    ("1000 bytes with blanks", &["miss"], |word, _| longer(word, 1000, b" ")),
    ("8 bytes of its letters", &["hit", "miss"], |word, _| longer(word, 8, word)),
    ("9 bytes of its letters", &["miss"], |word, _| longer(word, 9, word)),
    ("19 bytes of its letters", &["miss"], |word, _| longer(word, 19, word)),
    ("1000 bytes of its letters", &["miss"], |word, _| longer(word, 1000, word)),
];

// A word and behind it the same bytes over and over, so many in all.
fn longer(word: &[u8], count: usize, bytes: &[u8]) -> Vec<u8> {
    word.iter().chain(bytes.iter().cycle()).take(count).copied().collect()
}

// Searches, and how often each change of a word ended in a hit, in a miss and in a refusal.
struct Searches {
    tally: Tally,
    ended: BTreeMap<(&'static str, &'static str), u64>,
}

impl Searches {
    // Searches for a word, changed. What is lent lies in front of the rest of the word, if it is its beginning: if more were read, it would
    // be found. [17.2] A hit tells a place, counted from 1, and a miss all rows.
    fn one(&mut self, what: &str, words: Option<&[u8]>, own: &Own, kind: usize, change: &Change) -> String {
        let changed = change.2(&own[kind], kind);
        let behind = own[kind].strip_prefix(&changed[..]).unwrap_or(b"");
        let answer = self.tally.look_up(what, words, &[&changed[..], behind].concat()[..changed.len()]);
        let rows = WORDS.len();
        let ended = match answer.parse::<usize>() {
            Ok(number) if (65536 + 1..=65536 + rows).contains(&number) => "hit",
            Ok(number) if number == rows => "miss",
            Ok(number) => panic!("{what}, {}: no search tells {number}", change.0),
            Err(_) => "refused",
        };
        *self.ended.entry((change.0, ended)).or_default() += 1;
        answer
    }

    // [17.2], [17.4] A word as it is, under accepted words: found at its place, counted from 1.
    fn placed(&mut self, what: &str, words: Option<&[u8]>, own: &Own, kind: usize) {
        let answer = self.one(what, words, own, kind, &CHANGES[0]);
        assert_eq!(answer, (65536 + kind + 1).to_string(), "{what}: {} is row {kind}", String::from_utf8_lossy(&own[kind]));
    }

    // Every word under accepted words, as it is and with every change.
    fn every(&mut self, what: &str, words: Option<&[u8]>, own: &Own) {
        for kind in 0..WORDS.len() {
            self.placed(what, words, own, kind);
            for change in &CHANGES[1..] {
                self.one(what, words, own, kind, change);
            }
        }
    }

    // The built-in words by both entries, German words, the longest ones, and words that begin one another.
    fn known(&mut self) {
        let mut numbers = Numbers::new(17);
        self.every("the built-in words", None, &wording::built_in());
        let german = wording::own(include_bytes!("../examples/german.words"));
        let long = distinct(&mut numbers, |kind, _| most(kind));
        for (what, own) in [("the built-in words as a text", wording::built_in()), ("German words", german), ("long words", long)] {
            self.every(what, Some(&wording::text(&own)), &own);
        }
        for _ in 0..10 {
            let own = beginnings(&mut numbers);
            self.every("words that begin one another", Some(&wording::text(&own)), &own);
        }
    }

    // Under a words text: each word, if it is accepted; some changed ones, which the plain entry is asked as well.
    fn under(&mut self, worded: &Worded, numbers: &mut Numbers) {
        let (words, accepted) = (Some(worded.text()), worded.answer == "no,1,0");
        for kind in (0..WORDS.len()).filter(|_| accepted) {
            self.placed(worded.what, words, &worded.own, kind);
        }
        for _ in 0..10 {
            let (kind, change) = (a_kind(numbers), numbers.one_of(&CHANGES));
            let answer = self.one(worded.what, words, &worded.own, kind, change);
            assert!(accepted || answer == worded.answer, "{}: {answer}", worded.what);
            self.one("plain", None, &worded.own, kind, change);
        }
    }

    // How the searches ended; each change has to have ended as is said of it, and in a refusal.
    fn counts(&self) -> String {
        let due = CHANGES.iter().flat_map(|change| change.1.iter().chain(&["refused"]).map(|ended| (change.0, *ended)));
        let missing: Vec<_> = due.filter(|due| !self.ended.contains_key(due)).collect();
        assert!(missing.is_empty(), "not searched: {missing:?}");
        let all = |how: &str| self.ended.iter().filter(|(key, _)| key.1 == how).map(|(_, count)| count).sum::<u64>();
        format!(
            "{} words searched for, as they are or changed in {} ways, answered alike, the number told as a whole: {} hits, {} misses, {}",
            self.tally.0.values().sum::<u64>(),
            CHANGES.len() - 1,
            all("hit"),
            all("miss"),
            self.tally.refused(&[16, 17])
        )
    }
}

// What was done to the words texts and how often; how many of the plans in own words that were translated have vectors, and how many of the
// loops in own words that were accepted have lanes.
fn random(count: u64, words: &mut Tally, plain: &mut Tally, searches: &mut Searches) -> (BTreeMap<&'static str, u64>, [u64; 2]) {
    let mut done = BTreeMap::new();
    let (mut vectors, mut lanes) = (plans::Share::of_vectors(), plans::Share::of_lanes());
    for seed in 0..count {
        let mut numbers = Numbers::new(seed ^ 0x3333);
        let worded = words_text(&mut numbers);
        *done.entry(worded.what).or_default() += 1;
        assert_eq!(entries::check_plan_in(Some(worded.text()), &[]), worded.answer, "{}", worded.what);
        searches.under(&worded, &mut Numbers::new(seed ^ 0x1717));
        let (plan, accepted) = (plans::plan(seed), worded.answer == "no,1,0");
        if accepted && same_rows(&worded, &plan) {
            vectors.take(&plan);
        }
        let made = reference::reply(&["translate".into()], &plan).into_bytes();
        let bytes = *numbers.one_of(&[0, 40, 65536, 65536]);
        for text in texts(&plan, &worded.own, &mut numbers) {
            words.plan(worded.what, Some(worded.text()), &text, bytes);
            plain.plan("plain", None, &text, bytes);
        }
        let whole = if numbers.below(3) > 0 { commands::loops(seed) } else { made };
        let rows = (*numbers.one_of(&[0, 5, 4096, 4096, 4096]), *numbers.one_of(&[0, 5, 4096, 4096, 4096]));
        let order = *numbers.one_of(&[0, 1, 2, 2, 3]);
        let store = *numbers.one_of(&[0, 3, 4 * 16384, 4 * 16384, 4 * 16384]);
        if accepted && reference::writes(&whole).parse::<u64>().is_ok() {
            lanes.take(&whole);
        }
        for text in texts(&whole, &worded.own, &mut numbers) {
            words.loops(worded.what, Some(worded.text()), &text, rows, order, store);
            plain.loops("plain", None, &text, rows, order, store);
        }
    }
    (done, [vectors.count(), lanes.count()])
}

fn main() {
    let (mut words, mut plain) = (Tally(BTreeMap::new()), Tally(BTreeMap::new()));
    let mut searches = Searches { tally: Tally(BTreeMap::new()), ended: BTreeMap::new() };
    let count = std::env::args().nth(1).unwrap().parse().unwrap();
    let (done, [vectors, lanes]) = random(count, &mut words, &mut plain, &mut searches);
    longest(&mut words);
    searches.known();
    let ways = LINE_DAMAGES.iter().map(|way| way.0).chain(TEXT_DAMAGES.iter().map(|way| way.0)).chain(["a word twice", "nothing done"]);
    let missing: Vec<&str> = ways.filter(|way| !done.contains_key(way)).collect();
    assert!(missing.is_empty(), "not tried: {missing:?}");
    println!(
        "{count} words texts, whole or damaged in {} ways, {} calls with a words text answered alike by the library and the second \
         implementation: {}; {vectors} plans with vectors made into loops in own words, {lanes} loops with lanes accepted in own words",
        done.len() - 1,
        words.0.values().sum::<u64>(),
        words.counts(&[1, 2, 3, 4, 5, 7, 9, 12, 13, 14, 16, 17, 18])
    );
    println!(
        "{} calls of the plain entries beside them: {}; no byte lent or beside it differs from what the second implementation leaves there",
        plain.0.values().sum::<u64>(),
        plain.counts(&[1, 2, 4, 5, 7, 9, 12, 13, 14, 18])
    );
    println!("{}", searches.counts());
}
