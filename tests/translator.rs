// [11.1] Runs the translator over random plans, whole and damaged, and compares what it prints with the second implementation.
//
//   translator PROGRAM COUNT
use std::process::Command;

#[allow(dead_code)]
mod plans;
mod process;
#[allow(dead_code)]
mod reference;

fn main() {
    let args: Vec<String> = std::env::args().collect();
    let count: u64 = args[2].parse().unwrap();
    let (mut made, mut refused, mut vectors) = (0, 0, plans::Share::of_vectors());
    for seed in 0..count {
        for text in [plans::plan(seed), plans::damaged(seed)] {
            let expected = reference::reply(&["translate".into()], &text);
            let found = process::output(Command::new(&args[1]), &text);
            if found != expected {
                println!("plan {seed}: {expected}but the program prints {found}of\n{}", String::from_utf8_lossy(&text));
                std::process::exit(1);
            }
            if expected.starts_with("no,") {
                refused += 1;
                continue;
            }
            made += 1;
            vectors.take(&text);
        }
    }
    println!(
        "{} plans answered alike by the program and the second implementation: {made} translated, {} of them with vectors, {refused} refused",
        made + refused,
        vectors.count()
    );
}
