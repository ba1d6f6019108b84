// The entries over lent tables and stores beside the second implementation: loops read into tables of every size, tables run that
// nobody read from a text, every order and store, and every slice lent as a null pointer. What is lent lies inside a longer slice; all
// of it, margins included, is compared with what the second implementation leaves there ([10.22]), which on a refusal is what was lent
// ([10.17]).
//
//   tables COUNT
use std::collections::BTreeMap;
use std::fmt::Debug;
use std::ops::Range;

mod commands;
#[allow(dead_code)]
mod entries;
#[allow(dead_code)]
mod plans;
#[allow(dead_code)]
mod reference;
#[allow(dead_code)]
mod wording;

use plans::Numbers;

const MARGIN: usize = 16;
const ORDERS: [u32; 5] = [0, 1, 2, 3, 4294967295];

fn inside(count: usize) -> Range<usize> {
    MARGIN..MARGIN + count
}

// How often each answer was given: by the number of the refusal, or 0.
struct Tally(BTreeMap<u32, u64>);

impl Tally {
    fn new() -> Tally {
        Tally(BTreeMap::new())
    }

    // Compares two answers and what they left in lent memory.
    fn same<T: PartialEq + Debug>(&mut self, what: &str, of: impl Debug, found: (String, T), wanted: (String, T)) {
        if found.0 != wanted.0 {
            println!("{what}: {}, but {}, of {of:?}", found.0, wanted.0);
            std::process::exit(1);
        }
        if found.1 != wanted.1 {
            println!("{what}, answer {}: what was lent holds\n{:?}\nbut should hold\n{:?}\nof {of:?}", found.0, found.1, wanted.1);
            std::process::exit(1);
        }
        let number = found.0.strip_prefix("no,").map_or(0, |rest| rest.split(',').next().unwrap().parse().unwrap());
        *self.0.entry(number).or_default() += 1;
    }

    // The counts as they are printed; each of these refusals must have been given.
    fn counts(&self, due: &[u32]) -> String {
        for number in due {
            assert!(self.0.contains_key(number), "no refusal {number} among {:?}", self.0);
        }
        let refused: Vec<String> = self.0.iter().filter(|(n, _)| **n > 0).map(|(n, count)| format!("{count} by {n}")).collect();
        format!("{} done, refused {}", self.0.get(&0).unwrap_or(&0), refused.join(", "))
    }
}

struct Table {
    kinds: Vec<u8>,
    numbers: Vec<i32>,
}

impl Table {
    // The rows of loops that pass, as the second implementation reads them.
    fn of(text: &[u8]) -> Option<Table> {
        let mut table = Table { kinds: vec![0; 4096], numbers: vec![0; 4096] };
        let rows = reference::read_loops(text, &mut table.kinds, &mut table.numbers).parse().ok()?;
        table.kinds.truncate(rows);
        table.numbers.truncate(rows);
        Some(table)
    }

    fn random(numbers: &mut Numbers) -> Table {
        let words = reference::WORDS.len() as u64;
        let most = *numbers.one_of(&[256, words, words, words + 1]);
        let mut length = || *numbers.one_of(&[0, 1, 2, 3, 5, 8, 13, 21, 40, 4096, 4097]);
        let (k, n) = (length(), length());
        let mut table = Table { kinds: Vec::new(), numbers: Vec::new() };
        table.kinds = (0..k).map(|_| numbers.below(most) as u8).collect();
        table.numbers = (0..n).map(|_| a_number(numbers)).collect();
        // Mostly it begins as loops do, so that the walk comes further.
        for (i, (kind, number)) in [(24, 0), (25, 1), (26, 0), (31, 0), (6, 0)].iter().take(numbers.below(9) as usize).enumerate() {
            if i < k && i < n {
                table.kinds[i] = *kind;
                table.numbers[i] = *number;
            }
        }
        table
    }

    fn word(&self, row: usize) -> &'static str {
        reference::WORDS[self.kinds[row] as usize]
    }

    // One row changed: its kind or its number; or a loop, if there is one, made a `lanes` of two.
    fn damage(&mut self, numbers: &mut Numbers) {
        let row = numbers.below(self.kinds.len() as u64) as usize;
        let loops: Vec<usize> = (0..self.kinds.len()).filter(|row| self.word(*row) == "for" || self.word(*row) == "par").collect();
        match numbers.below(4) {
            3 if !loops.is_empty() => {
                let row = *numbers.one_of(&loops);
                self.kinds[row] = reference::WORDS.iter().position(|word| *word == "lanes").unwrap() as u8;
                self.numbers[row] = 2;
            }
            0 => self.kinds[row] = numbers.below(reference::WORDS.len() as u64 + 2) as u8,
            1 => self.kinds[row] = numbers.below(256) as u8,
            _ => self.numbers[row] = a_number(numbers),
        }
    }

    fn run(&self, order: u32, cells: &[u8], tally: &mut Tally) {
        let (mut found, mut wanted) = (cells.to_vec(), cells.to_vec());
        let here = inside(cells.len() - 2 * MARGIN);
        let answer = entries::run_rows(&self.kinds, &self.numbers, order, &mut found[here.clone()]);
        let other = reference::run_table(&self.kinds, &self.numbers, order, &mut wanted[here]);
        let of = (&self.kinds, &self.numbers, order);
        tally.same("run of a table", of, (answer, found), (other, wanted));
    }
}

fn a_number(numbers: &mut Numbers) -> i32 {
    let any = numbers.next() as i32;
    *numbers.one_of(&[0, 0, 0, 1, 1, 2, 3, 8, 15, 16, -1, 4095, 4096, 4097, 2147483647, -2147483648, any])
}

// Bytes to lend, with their margins.
fn bytes(count: usize, numbers: &mut Numbers) -> Vec<u8> {
    (0..count + 2 * MARGIN).map(|_| numbers.next() as u8).collect()
}

// [9.11], [10.14] The sizes of a store, in bytes: one byte short of the need, the need, some left over.
fn sizes(need: usize) -> [usize; 7] {
    let exact = 4 * need;
    [0, exact.saturating_sub(1), exact, exact + 1, exact + 2, exact + 3, exact + 9]
}

// [10.12] Reads loops into tables as long as their rows, longer and shorter.
fn read(text: &[u8], tally: &mut Tally) {
    let rows = text.split(|b| *b == 10).count() - 1;
    let (less, more) = (rows.saturating_sub(1), rows + 5);
    for (k, n) in [(rows, rows), (more, more), (rows, more), (less, rows), (rows, less), (less, less), (0, rows), (rows, 0)] {
        let lent = || (vec![0xa5u8; k + 2 * MARGIN], vec![-77i32; n + 2 * MARGIN]);
        let (mut found, mut wanted) = (lent(), lent());
        let answer = entries::read_loops(text, &mut found.0[inside(k)], &mut found.1[inside(n)]);
        let other = reference::read_loops(text, &mut wanted.0[inside(k)], &mut wanted.1[inside(n)]);
        tally.same("reading of loops", String::from_utf8_lossy(text), (answer, found), (other, wanted));
    }
}

// [9.10], [10.13] Runs a text in every order, on stores of every size; and its table, if it has one.
fn run(text: &[u8], numbers: &mut Numbers, texts: &mut Tally, tables: &mut Tally) {
    let table = Table::of(text);
    let need = table.as_ref().map_or(3, |t| reference::table_need(&t.kinds, &t.numbers));
    for order in ORDERS {
        for size in sizes(need) {
            let cells = bytes(size, numbers);
            let (mut found, mut wanted) = (cells.clone(), cells.clone());
            let answer = entries::run(text, order, &mut found[inside(size)]);
            let other = reference::run_text(text, order, &mut wanted[inside(size)]);
            texts.same("run of a text", (String::from_utf8_lossy(text), order), (answer, found), (other, wanted));
            if let Some(table) = &table {
                table.run(order, &cells, tables);
            }
        }
    }
}

// One order and one store for a table of which nothing is known.
fn run_any(table: &Table, numbers: &mut Numbers, tally: &mut Tally) {
    let order = *numbers.one_of(&[0, 0, 1, 1, 2, 2, 3, 4294967295]);
    let need = reference::table_need(&table.kinds, &table.numbers);
    let size = *numbers.one_of(&sizes(need));
    let cells = bytes(size, numbers);
    table.run(order, &cells, tally);
}

// [12.4] Every slice of every entry, one at a time, lent as a null pointer with count 0; the other slices would do. Those that take a
// words text are asked with one, and with none but the null pointer ([16.7]).
fn nulls(tally: &mut Tally) {
    let words = wording::text(&wording::built_in());
    for words in [None, Some(&words[..]), Some(&[][..])] {
        null_texts(words, tally);
        for order in [0, 3] {
            null_runs(words, order, tally);
        }
    }
}

const PLAN: &[u8] = b"plan,0\nlit,7\n";
const LOOPS: &[u8] = b"loops,0\ncells,1\nset,0\nout,0\nlit,0\nlit,7\n";

fn null_texts(words: Option<&[u8]>, tally: &mut Tally) {
    let reply = |question: &str, text: &[u8]| {
        let question: Vec<String> = question.split(' ').map(|part| part.into()).collect();
        reference::reply_in(words, &question, text).trim_end().to_string()
    };
    let mut same = |entry: &str, found: String, wanted: String| tally.same(entry, words, (found, ()), (wanted, ()));
    for plan in [&[], PLAN] {
        same("check_plan", entries::check_plan_in(words, plan), reply("plan", plan).replace("ok", "0"));
        for bytes in [0, 100] {
            let found = entries::translate_in(words, plan, &mut vec![0; bytes]);
            same("translate", found, reference::translate_in(words, plan, &mut vec![0; bytes]));
        }
    }
    for loops in [&[], LOOPS] {
        same("check_loops", entries::check_loops_in(words, loops), reference::writes_in(words, loops));
        same("need", entries::need_in(words, loops), reference::need_in(words, loops));
        for (k, n) in [(9, 9), (0, 9), (9, 0)] {
            let found = entries::read_loops_in(words, loops, &mut vec![0; k], &mut vec![0; n]);
            same("read_loops", found, reference::read_loops_in(words, loops, &mut vec![0; k], &mut vec![0; n]));
        }
    }
    for word in [&b""[..], b"rest"] {
        same("look_up", entries::look_up_in(words, word), reference::look_up_in(words, word));
    }
}

fn null_runs(words: Option<&[u8]>, order: u32, tally: &mut Tally) {
    let table = Table::of(LOOPS).unwrap();
    let mut same = |entry: &str, found: String, wanted: String| tally.same(entry, (words, order), (found, ()), (wanted, ()));
    for (loops, bytes) in [(&[][..], 4), (LOOPS, 0), (LOOPS, 4)] {
        let found = entries::run_in(words, loops, order, &mut vec![0; bytes]);
        same("run", found, reference::run_text_in(words, loops, order, &mut vec![0; bytes]));
    }
    let mut run = |kinds: &[u8], numbers: &[i32], bytes: usize| {
        let found = entries::run_rows(kinds, numbers, order, &mut vec![0; bytes]);
        same("run_rows", found, reference::run_table(kinds, numbers, order, &mut vec![0; bytes]));
    };
    run(&[], &table.numbers, 4);
    run(&table.kinds, &[], 4);
    run(&table.kinds, &table.numbers, 0);
    run(&[], &[], 0);
}

// Random loops, made and written by hand, whole and damaged, and random tables. How many of the loops that were run have lanes.
fn random(count: u64, reads: &mut Tally, texts: &mut Tally, tables: &mut Tally, any: &mut Tally) -> u64 {
    let mut lanes = plans::Share::of_lanes();
    for seed in 0..count {
        let mut numbers = Numbers::new(seed ^ 0x1234);
        let made = reference::reply(&["translate".into()], &plans::plan(seed)).into_bytes();
        for whole in [commands::loops(seed), made] {
            for text in [plans::damage(&whole, &mut numbers), whole] {
                read(&text, reads);
                run(&text, &mut numbers, texts, tables);
                if Table::of(&text).is_some() {
                    lanes.take(&text);
                }
                for _ in 0..5 {
                    let Some(mut table) = Table::of(&text) else { break };
                    table.damage(&mut numbers);
                    run_any(&table, &mut numbers, any);
                }
            }
        }
        for _ in 0..10 {
            run_any(&Table::random(&mut numbers), &mut numbers, any);
        }
    }
    lanes.count()
}

// [10.1], [10.3] Texts about as long as loops may be, and longer.
fn long(reads: &mut Tally, texts: &mut Tally, tables: &mut Tally) {
    let mut numbers = Numbers::new(1);
    for rows in [4095, 4096, 4097] {
        let text = commands::long(rows);
        read(&text, reads);
        run(&text, &mut numbers, texts, tables);
    }
    for size in [65535, 65536, 65537, 70000] {
        for line in ["lit,1\n", "lit,-2147483648\n"] {
            let text = plans::filled(size, line);
            read(&text, reads);
            run(&text, &mut numbers, texts, tables);
        }
    }
}

fn main() {
    let (mut reads, mut texts, mut tables, mut any) = (Tally::new(), Tally::new(), Tally::new(), Tally::new());
    let lanes = random(std::env::args().nth(1).unwrap().parse().unwrap(), &mut reads, &mut texts, &mut tables, &mut any);
    long(&mut reads, &mut texts, &mut tables);
    let mut null = Tally::new();
    nulls(&mut null);
    let print = |what: &str, tally: &Tally, due: &[u32]| {
        let all = tally.0.values().sum::<u64>();
        println!("{all} {what} answered alike by the library and the second implementation: {}", tally.counts(due));
    };
    print("readings of loops into lent tables, exact, longer and shorter,", &reads, &[1, 2, 3, 4, 5, 9, 12, 18]);
    print("runs of texts, in the orders 0 to 3 and 4294967295,", &texts, &[1, 2, 3, 4, 5, 9, 13, 14, 18]);
    print("runs of the tables read from them", &tables, &[13, 14]);
    print("runs of tables random or damaged in one row", &any, &[2, 3, 4, 5, 9, 13, 14, 18]);
    print("calls with a null pointer and count 0, for each slice of each entry,", &null, &[1, 4, 12, 13, 14, 16]);
    println!(
        "{lanes} of the loops that were run have lanes; no byte lent or beside it differs from what the second implementation leaves there: on a \
         refusal, from what was lent"
    );
}
