// From a plan's text to the amperes: random plans go through the translator and the runner, and what the runner prints ([11.7]) is
// compared with the plan's value and writes ([9.8]) as the second implementation finds them from the formulas.
//
//   runner TRANSLATOR RUNNER COUNT
use std::path::Path;
use std::process::Command;

#[allow(dead_code)]
mod plans;
mod process;
#[allow(dead_code)]
mod reference;

use process::output;

// How many cells the inputs of loops have.
fn input_cells(loops: &str) -> usize {
    let numbers: Vec<usize> = loops.lines().take(10).filter_map(|l| l.split_once(',')?.1.parse().ok()).collect();
    numbers[1..=numbers[0]].iter().sum()
}

// What the runner is to print: the value's cells and the writes, or that its store is too short.
fn expected(plan: &[u8], cells: &[i32]) -> String {
    let counts = reference::reply(&["count".into()], plan);
    let words: Vec<&str> = counts.split_whitespace().collect();
    if words[5].parse::<usize>().unwrap() > 16384 {
        return "no,14,0\n".into();
    }
    let list: Vec<String> = cells.iter().map(|c| c.to_string()).collect();
    let value = reference::reply(&["value".into(), list.join(",")], plan);
    let lines: String = value.split_whitespace().enumerate().map(|(i, v)| format!("{i},{v}\n")).collect();
    format!("{lines}writes,{}\n", words[3])
}

fn main() {
    let args: Vec<String> = std::env::args().collect();
    let count: u64 = args[3].parse().unwrap();
    let folder = std::env::temp_dir().join(format!("vazhdumir-runner-{}", std::process::id()));
    std::fs::create_dir_all(&folder).unwrap();
    let (mut compared, mut vectors) = (0, plans::Share::of_vectors());
    for seed in 0..count {
        let plan = plans::plan(seed);
        let loops = output(Command::new(&args[1]), &plan);
        if loops.starts_with("no,") {
            continue;
        }
        let mut numbers = plans::Numbers::new(seed ^ 0xabcd);
        let cells: Vec<i32> = (0..input_cells(&loops)).map(|_| numbers.below(41) as i32 - 20).collect();
        let mut lines: Vec<String> = cells.iter().enumerate().map(|(i, v)| format!("{i},{v}\n")).collect();
        let turn = numbers.below(7) as usize % lines.len().max(1);
        lines.rotate_left(turn);
        std::fs::write(folder.join("loops.txt"), &loops).unwrap();
        std::fs::write(folder.join("values.txt"), lines.concat()).unwrap();
        let mut runner = Command::new(Path::new(&args[2]).canonicalize().unwrap());
        runner.current_dir(&folder);
        let (found, wanted) = (output(runner, b""), expected(&plan, &cells));
        if found != wanted {
            println!("plan {seed}: the runner prints\n{found}and the value is\n{wanted}of\n{}", String::from_utf8_lossy(&plan));
            std::process::exit(1);
        }
        compared += 1;
        vectors.take(&plan);
    }
    std::fs::remove_dir_all(&folder).unwrap();
    println!("{compared} plans translated and run, {} of them with vectors: the runner prints their value and their writes", vectors.count());
}
