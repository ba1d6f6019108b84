// The run of the static library beside a plain interpreter in Rust, on the loops of seven plans of five to ten million writes: the cells that
// they need, and nanoseconds for each write, the least of several turns. Two of the plans do one job, in numbers and in vectors. Then the check
// of the longest plan, in the built-in words and in German: microseconds for each check. Then the longest loops, read into a table, and the
// longest texts, read and refused, with words that stand early and late in the table of words: microseconds for each. Then what a check and a
// run cost beside the writes (fixed.rs). Last the doors beside the second implementation (doors.rs).
use std::time::Instant;

mod doors;
mod fixed;
mod interpreter;

#[link(name = "vazhdumir", kind = "static")]
extern "C" {
    fn vazhdumir_check_plan(plan: *const u8, plan_len: usize) -> u64;
    fn vazhdumir_check_plan_in(words: *const u8, words_len: usize, plan: *const u8, plan_len: usize) -> u64;
    fn vazhdumir_translate(plan: *const u8, plan_len: usize, loops: *mut u8, loops_len: usize) -> u64;
    fn vazhdumir_read_loops(
        loops: *const u8,
        loops_len: usize,
        kinds: *mut u8,
        kinds_len: usize,
        numbers: *mut i32,
        numbers_len: usize,
    ) -> u64;
    fn vazhdumir_need(loops: *const u8, loops_len: usize) -> u64;
    fn vazhdumir_run(loops: *const u8, loops_len: usize, order: u32, store: *mut u8, store_len: usize) -> u64;
}

const TURNS: usize = 5;
const CHECKS: usize = 10_000;
const READS: usize = 1_000;
const ROWS: usize = 4096;

const GERMAN: &str = include_str!("../examples/german.words");

const PLANS: [(&str, &str); 7] = [
    ("dot product", include_str!("dot.plan")),
    ("sums", include_str!("sums.plan")),
    ("used maps", include_str!("maps.plan")),
    ("used maps in vectors", include_str!("maps_in_vectors.plan")),
    ("zipped and regrouped", include_str!("regrouped.plan")),
    ("matrix product", include_str!("matrix.plan")),
    ("shares", include_str!("shares.plan")),
];

// The plans that do one job.
const JOB: [&str; 2] = ["used maps", "used maps in vectors"];

// This thread's time on a processor, in nanoseconds; where the system does not tell it, the time that has passed.
fn clock(begin: Instant) -> f64 {
    std::fs::read_to_string("/proc/thread-self/schedstat")
        .ok()
        .and_then(|line| line.split(' ').next()?.parse().ok())
        .unwrap_or_else(|| begin.elapsed().as_nanos() as f64)
}

fn loops_of(plan: &str) -> String {
    let mut text = vec![0u8; 65536];
    let bytes = unsafe { vazhdumir_translate(plan.as_ptr(), plan.len(), text.as_mut_ptr(), text.len()) };
    assert!(bytes >> 56 == 0, "refused: {},{}", bytes >> 56, bytes & 0xff_ffff);
    text.truncate(bytes as usize);
    String::from_utf8(text).unwrap()
}

// A plan of 256 lines, operations on numbers, in the words that `own` gives for the built-in ones.
fn longest_plan(own: impl Fn(&str) -> String) -> String {
    let operations = ["add", "sub", "mul", "div", "min", "max"];
    let mut rows = vec![("plan", 1), ("two", 0), ("num", 0), ("num", 0), ("snd", 0), ("in", 0)];
    while rows.len() + 2 <= 256 {
        let last = rows.len();
        rows.insert(4, (operations[last % 6], 0));
        rows.push(("lit", -2147483648 + last as i64));
    }
    rows.iter().map(|(word, number)| format!("{},{number}\n", own(word))).collect()
}

// The microseconds of a check, the least of several turns.
fn checked(begin: Instant, check: impl Fn() -> u64) -> f64 {
    let turn = || {
        let before = clock(begin);
        (0..CHECKS).for_each(|_| assert_eq!(check(), 0));
        (clock(begin) - before) / (1000 * CHECKS) as f64
    };
    (0..TURNS).map(|_| turn()).fold(f64::MAX, f64::min)
}

fn checks(begin: Instant) {
    let plain = longest_plan(|word| word.into());
    let own = |word: &str| GERMAN.lines().find_map(|line| line.strip_prefix(word)?.strip_prefix(',')).unwrap().to_string();
    let german = longest_plan(own);
    let built_in = checked(begin, || unsafe { vazhdumir_check_plan(plain.as_ptr(), plain.len()) });
    let worded = checked(begin, || unsafe { vazhdumir_check_plan_in(GERMAN.as_ptr(), GERMAN.len(), german.as_ptr(), german.len()) });
    println!("check of a plan of {} lines: {built_in:.1} microseconds, in German words {worded:.1}", plain.lines().count());
}

// The longest loops that are accepted in the built-in words: one `set` of a sum of the longest numbers. An `add` and a
// `lit` have 22 bytes together, and no other two rows that may be repeated have more.
fn longest_loops() -> String {
    let sums = (ROWS - 6) / 2;
    let value = format!("{}{}", "add,0\n".repeat(sums), "lit,-2147483648\n".repeat(sums + 1));
    format!("loops,0\ncells,4096\nset,0\nout,0\nlit,4095\n{value}")
}

// Loops of as many rows: one `set`, whose offset is made of the words that stand last of those of offsets. It is 0, whatever they do to it.
fn last_words() -> String {
    let offset: String = ["times,4096\n", "over,4096\n", "rest,4096\n"].into_iter().cycle().take(ROWS - 6).collect();
    format!("loops,0\ncells,4096\nset,0\nout,0\n{offset}lit,0\nlit,-2147483648\n")
}

// The microseconds in which a text is read into a table, or refused once it has been read: the least of several turns.
fn read(begin: Instant, loops: &str, answer: u64) -> f64 {
    let (mut kinds, mut numbers) = (vec![0u8; ROWS], vec![0i32; ROWS]);
    let (k, n) = (kinds.as_mut_ptr(), numbers.as_mut_ptr());
    let turn = || {
        let before = clock(begin);
        (0..READS).for_each(|_| assert_eq!(unsafe { vazhdumir_read_loops(loops.as_ptr(), loops.len(), k, ROWS, n, ROWS) }, answer));
        (clock(begin) - before) / (1000 * READS) as f64
    };
    (0..TURNS).map(|_| turn()).fold(f64::MAX, f64::min)
}

// A text of 65,536 bytes passes questions 1 to 3, for which it is read, and is refused by 4 on its first line.
fn reads(begin: Instant) {
    let (put, refused) = (ROWS as u64, 4 << 56 | 1);
    let texts = [
        ("longest loops", longest_loops(), put),
        ("loops of the last words", last_words(), put),
        ("longest text, of `lit`", "lit,-2147483648\n".repeat(ROWS), refused),
        ("longest text, of `rest`", "rest,2147483647\n".repeat(ROWS), refused),
    ];
    println!("{:24} {:>6} {:>6} {:>13}", "reading", "lines", "bytes", "microseconds");
    for (name, text, answer) in texts {
        println!("{name:24} {:>6} {:>6} {:>13.1}", text.lines().count(), text.len(), read(begin, &text, answer));
    }
}

fn main() {
    let begin = Instant::now();
    println!("{:22} {:>10} {:>10} {:>8} {:>8} {:>6}", "plan", "writes", "need", "ours", "plain", "ratio");
    let mut outputs = Vec::new();
    for (name, plan) in PLANS {
        let text = loops_of(plan);
        let loops = interpreter::read(&text);
        let need = unsafe { vazhdumir_need(text.as_ptr(), text.len()) } as usize;
        let start: Vec<i32> = (0..need).map(|i| i as i32 % 13 - 6).collect();
        let (mut ours, mut beside, mut writes, mut output) = (f64::MAX, f64::MAX, 0, Vec::new());
        for _ in 0..TURNS {
            let (mut plain, mut bytes) = (start.clone(), start.iter().flat_map(|c| c.to_le_bytes()).collect::<Vec<u8>>());
            let before = clock(begin);
            writes = unsafe { vazhdumir_run(text.as_ptr(), text.len(), 0, bytes.as_mut_ptr(), bytes.len()) };
            let between = clock(begin);
            assert_eq!(interpreter::run(&loops, &mut plain), writes);
            let after = clock(begin);
            ours = ours.min((between - before) / writes as f64);
            beside = beside.min((after - between) / writes as f64);
            let left: Vec<i32> = bytes.chunks_exact(4).map(|b| i32::from_le_bytes(b.try_into().unwrap())).collect();
            assert_eq!(left, plain);
            output = plain[loops.inputs.iter().sum()..][..loops.output].to_vec();
        }
        if JOB.contains(&name) {
            outputs.push(output);
        }
        println!("{name:22} {writes:>10} {need:>10} {ours:>8.1} {beside:>8.1} {:>6.2}", ours / beside);
    }
    assert!(outputs.len() == 2 && outputs[0] == outputs[1], "one job, but not one output: {JOB:?}");
    checks(begin);
    reads(begin);
    fixed::print();
    doors::print();
}
