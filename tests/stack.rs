// How much stack the check, the need and the run of the deepest loops take: chains of `seq` to the right and to the left, the latter inside a
// `lanes` too, of `neg`, of `times` and of `add` to the left, of 4,086 rows and more; and the check and the translation of the deepest plans, a
// chain of `neg` and one of `mapvec` over `mapvec`. Each call is made by a process of its own, on a thread with so many KiB of stack; where they
// are too few, the system ends the process. The least that will do is searched for, from what the header promises down. What a level takes is
// found from two depths of one shape, and is what the header says too.
//
//   stack HEADER
#[allow(dead_code)]
mod entries;

const DEPTH: usize = 4_084;

// Each with the KiB that the header promises to be enough.
const SHAPES: [(&str, usize); 6] = [
    ("seq to the right", 512),
    ("seq to the left", 528),
    ("seq to the left in lanes", 528),
    ("neg", 512),
    ("times", 512),
    (LEVELS, 896),
];

const ENTRIES: [&str; 3] = ["check", "need", "run"];

const PLANS: [(&str, usize); 2] = [("plan of neg", 512), ("plan of mapvec", 512)];

const PLAN_ENTRIES: [&str; 2] = ["check_plan", "translate"];

// The shape of which the stack is measured at half its depth too.
const LEVELS: &str = "add to the left";
const HALF: &str = "half of it";

fn text(shape: &str) -> String {
    let set = "set,0\nout,0\nlit,0\nlit,7\n";
    let many = DEPTH / 5;
    let command = match shape {
        "plan of neg" => return format!("plan,0\n{}lit,7\n", "neg,0\n".repeat(254)),
        "plan of mapvec" => return format!("plan,1\nvec,2\n{}in,0\n{}", "mapvec,0\n".repeat(126), "var,0\n".repeat(126)),
        "seq to the right" => format!("{}{set}", format!("seq,0\n{set}").repeat(many)),
        "seq to the left" => format!("{}{set}{}", "seq,0\n".repeat(many), set.repeat(many)),
        "seq to the left in lanes" => format!("lanes,2\n{}{set}{}", "seq,0\n".repeat(many), set.repeat(many)),
        LEVELS => format!("set,0\nout,0\nlit,0\n{}{}", "add,0\n".repeat(DEPTH / 2), "lit,7\n".repeat(DEPTH / 2 + 1)),
        HALF => format!("set,0\nout,0\nlit,0\n{}{}", "add,0\n".repeat(DEPTH / 4), "lit,7\n".repeat(DEPTH / 4 + 1)),
        "neg" => format!("set,0\nout,0\nlit,0\n{}lit,7\n", "neg,0\n".repeat(DEPTH)),
        _ => format!("set,0\nout,0\n{}lit,0\nlit,7\n", "times,1\n".repeat(DEPTH)),
    };
    format!("loops,0\ncells,1\n{command}")
}

fn call(entry: &str, text: &[u8]) -> String {
    match entry {
        "check" => entries::check_loops(text),
        "need" => entries::need(text),
        "check_plan" => entries::check_plan(text),
        "translate" => entries::translate(text, &mut vec![0; 65536]),
        _ => entries::run(text, 0, &mut [0; 4]),
    }
}

// The call on a thread of so many KiB: the process ends well where the stack was enough and the answer is the same as with a large one.
fn alone(entry: &str, shape: &str, size: usize) {
    let text = text(shape);
    let asked = |size: usize| {
        let (entry, text) = (entry.to_string(), text.clone());
        std::thread::Builder::new().stack_size(size << 10).spawn(move || call(&entry, text.as_bytes())).unwrap().join().unwrap()
    };
    let answer = asked(size);
    assert!(!answer.starts_with("no"), "{entry} of {shape}: {answer}");
    assert_eq!(answer, asked(16 << 10));
}

fn enough(entry: &str, shape: &str, size: usize) -> bool {
    let program = std::env::current_exe().unwrap();
    let status = std::process::Command::new(program).args([entry, shape, &size.to_string()]).stderr(std::process::Stdio::null()).status();
    status.unwrap().success()
}

fn least(entry: &str, shape: &str, most: usize) -> usize {
    assert!(enough(entry, shape, most), "{entry} of {shape} takes more than {most} KiB of stack");
    let (mut few, mut many) = (16, most);
    while few + 1 < many {
        let size = (few + many) / 2;
        if enough(entry, shape, size) { many = size } else { few = size }
    }
    many
}

// The bytes that a level takes: the frames of calls are multiples of 16 bytes.
fn level() -> usize {
    let more = least("check", LEVELS, 896) - least("check", HALF, 896);
    let bytes = (more << 10) as f64 / (DEPTH / 2 - DEPTH / 4) as f64;
    (bytes / 16.0).round() as usize * 16
}

fn main() {
    let given: Vec<String> = std::env::args().skip(1).collect();
    if let [entry, shape, size] = &given[..] {
        return alone(entry, shape, size.parse().unwrap());
    }
    let header = std::fs::read_to_string(&given[0]).unwrap();
    let told = |(shape, most): &(&str, usize), entries: &[&str]| {
        assert!(header.contains(&format!("{most} KiB")), "{} does not say {most} KiB", given[0]);
        let sizes: Vec<String> = entries.iter().map(|entry| format!("{entry} {}", least(entry, shape, *most))).collect();
        format!("{shape} ({} rows): {}", text(shape).lines().count(), sizes.join(", "))
    };
    let mut all: Vec<String> = SHAPES.iter().map(|shape| told(shape, &ENTRIES)).collect();
    all.extend(PLANS.iter().map(|shape| told(shape, &PLAN_ENTRIES)));
    let level = level();
    assert!(header.contains(&format!("some {level} bytes a level")), "{} does not say that a level takes {level} bytes", given[0]);
    println!("KiB of stack that the deepest loops and plans take: {}; a level takes {level} bytes", all.join("; "));
}
