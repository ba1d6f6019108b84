// The doors that read a text, beside the second implementation of the tests: microseconds for the check of a plan, for its translation and
// for the check of the loops made of it, the least of many short turns.
use crate::{longest_loops, longest_plan, loops_of};
use std::time::Instant;

#[allow(dead_code)]
#[path = "../tests/reference.rs"]
mod reference;

#[link(name = "vazhdumir", kind = "static")]
extern "C" {
    fn vazhdumir_check_plan(plan: *const u8, plan_len: usize) -> u64;
    fn vazhdumir_translate(plan: *const u8, plan_len: usize, loops: *mut u8, loops_len: usize) -> u64;
    fn vazhdumir_check_loops(loops: *const u8, loops_len: usize) -> u64;
}

const TURNS: usize = 100;
const TURN_MICROSECONDS: f64 = 1000.0;

// A plan of one sum.
const P1: &str = "plan,1\narr,2\nnum,0\nredseq,0\nlit,0\nin,0\nadd,0\nvar,0\nvar,1\n";

// The microseconds of a call.
pub fn timed(mut call: impl FnMut()) -> f64 {
    let mut turn = |calls: usize| {
        let begin = Instant::now();
        (0..calls).for_each(|_| call());
        begin.elapsed().as_nanos() as f64 / (1000 * calls) as f64
    };
    let calls = (TURN_MICROSECONDS / turn(10)) as usize + 1;
    (0..TURNS).map(|_| turn(calls)).fold(f64::MAX, f64::min)
}

fn line(name: &str, door: &str, ours: impl FnMut(), second: impl FnMut()) {
    let (ours, second) = (timed(ours), timed(second));
    println!("{name:22} {door:14} {ours:>8.1} {second:>8.1} {:>6.2}", ours / second);
}

fn check_plan(name: &str, plan: &str) {
    let question = ["plan".to_string()];
    let ours = || assert_eq!(unsafe { vazhdumir_check_plan(plan.as_ptr(), plan.len()) }, 0);
    line(name, "check_plan", ours, || assert_eq!(reference::reply(&question, plan.as_bytes()), "ok\n"));
}

fn translate(name: &str, plan: &str, loops: &str) {
    let (mut made, mut beside, bytes) = (vec![0u8; 65536], vec![0u8; 65536], loops.len());
    let ours = || assert_eq!(unsafe { vazhdumir_translate(plan.as_ptr(), plan.len(), made.as_mut_ptr(), made.len()) }, bytes as u64);
    line(name, "translate", ours, || assert_eq!(reference::translate_in(None, plan.as_bytes(), &mut beside), bytes.to_string()));
    assert_eq!(made, beside);
}

fn check_loops(name: &str, loops: &str) {
    let writes = unsafe { vazhdumir_check_loops(loops.as_ptr(), loops.len()) };
    let ours = || assert_eq!(unsafe { vazhdumir_check_loops(loops.as_ptr(), loops.len()) }, writes);
    line(name, "check_loops", ours, || assert_eq!(reference::writes(loops.as_bytes()), writes.to_string()));
}

pub fn print() {
    let largest = longest_plan(|word| word.into());
    let plans = [
        ("P1", P1),
        ("garage", include_str!("../examples/garage.plan")),
        ("matrix product", include_str!("matrix.plan")),
        ("largest plan", &largest),
    ];
    println!("{:22} {:14} {:>8} {:>8} {:>6}", "microseconds", "door", "ours", "second", "ratio");
    for (name, plan) in plans {
        let loops = loops_of(plan);
        check_plan(name, plan);
        translate(name, plan, &loops);
        check_loops(name, &loops);
    }
    check_loops("largest loops", &longest_loops());
}
