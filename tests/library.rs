// The static library beside the second implementation: random plans, whole, damaged and of any types, are checked and translated by both; what
// is translated is run by the library in its three orders ([9.10]) on a random store, and the output is compared with the plan's value
// ([9.8]) as the second implementation finds it from the formulas, the whole store with that of order 0 ([9.14]). With `par` in place of
// every `lanes` the runs are the same ([18.10]). Damaged loops are checked by both.
//
//   library COUNT
#[allow(dead_code)]
mod entries;
#[allow(dead_code)]
mod plans;
#[allow(dead_code)]
mod reference;

fn reply(question: &str, text: &[u8]) -> String {
    reference::reply(&[question.into()], text).trim_end().into()
}

fn same(what: &str, text: &[u8], found: String, wanted: String) {
    if found != wanted {
        println!("{what}: {found}, but {wanted}, of\n{}", String::from_utf8_lossy(text));
        std::process::exit(1);
    }
}

// Translates by both, and answers the loops' text or the refusal.
fn translated(plan: &[u8]) -> Result<Vec<u8>, String> {
    let mut lent = vec![b'?'; 65536];
    let answer = entries::translate(plan, &mut lent);
    let wanted = reply("translate", plan);
    let Ok(bytes) = answer.parse() else {
        same("translation", plan, answer, wanted.clone());
        assert!(lent.iter().all(|b| *b == b'?'), "a refusal has changed the lent text");
        return Err(wanted);
    };
    let behind = lent.split_off(bytes);
    assert!(behind.iter().all(|b| *b == b'?'), "bytes behind the loops have changed");
    same("translation", plan, String::from_utf8_lossy(&lent).trim_end().into(), wanted);
    Ok(lent)
}

// [18.10] Loops with `par` in place of every `lanes`.
fn as_par(loops: &[u8]) -> Vec<u8> {
    String::from_utf8_lossy(loops).replace("lanes,", "par,").into_bytes()
}

// Runs loops made from a plan in every order that has a name, on a store longer than the need.
fn run(plan: &[u8], loops: &[u8], numbers: &mut plans::Numbers) {
    let counts = reply("count", plan);
    let counts: Vec<&str> = counts.split_whitespace().collect();
    same("need", plan, entries::need(loops), counts[5].into());
    let beside = Some(as_par(loops)).filter(|text| text != loops);
    if let Some(beside) = &beside {
        same("need with `par` for `lanes`", plan, entries::need(beside), counts[5].into());
    }
    let need: usize = counts[5].parse().unwrap();
    let cells: Vec<i32> = (0..need + 3).map(|_| numbers.below(2001) as i32 - 1000).collect();
    let mut before: Vec<u8> = cells.iter().flat_map(|c| c.to_le_bytes()).collect();
    before.extend([7, 8, 9]);
    let text = String::from_utf8_lossy(loops);
    let head: Vec<usize> = text.lines().take(10).filter_map(|l| l.split_once(',')?.1.parse().ok()).collect();
    let inputs: usize = head[1..=head[0]].iter().sum();
    let list: Vec<String> = cells[..inputs].iter().map(|c| c.to_string()).collect();
    let value = reference::reply(&["value".into(), list.join(",")], plan);
    let value: Vec<i32> = value.split_whitespace().map(|v| v.parse().unwrap()).collect();
    let mut forward = Vec::new();
    for order in 0..3 {
        let mut store = before.clone();
        same("writes", plan, entries::run(loops, order, &mut store), counts[3].into());
        if let Some(beside) = &beside {
            let mut other = before.clone();
            same("writes with `par` for `lanes`", plan, entries::run(beside, order, &mut other), counts[3].into());
            assert!(store == other, "order {order} with `par` for `lanes` leaves another store, of\n{}", String::from_utf8_lossy(plan));
        }
        let after: Vec<i32> = store.chunks_exact(4).map(|b| i32::from_le_bytes(b.try_into().unwrap())).collect();
        assert_eq!(after[inputs..inputs + value.len()], value, "order {order} of\n{}", String::from_utf8_lossy(plan));
        assert_eq!(after[..inputs], cells[..inputs], "an input has changed");
        assert_eq!(store[4 * need..], before[4 * need..], "a cell past the need has changed");
        if order == 0 {
            forward = store;
        } else {
            assert!(store == forward, "order {order} leaves another store than order 0, of\n{}", String::from_utf8_lossy(plan));
        }
    }
    let mut short = before[..4 * need - 1].to_vec();
    same("a store too short", plan, entries::run(loops, 0, &mut short), "no,14,0".into());
    assert_eq!(short[..], before[..4 * need - 1], "a refusal has changed the store");
}

fn main() {
    let count: u64 = std::env::args().nth(1).unwrap().parse().unwrap();
    let (mut texts, mut runs, mut inside) = (0, 0, 0);
    let (mut vectors, mut lanes) = (plans::Share::of_vectors(), plans::Share::of_lanes());
    for seed in 0..count {
        for (plan, grown) in [(plans::plan(seed), true), (plans::damaged(seed), true), (plans::untyped(seed), false)] {
            let checked = entries::check_plan(&plan);
            same("check of a plan", &plan, if checked == "0" { "ok".into() } else { checked }, reply("plan", &plan));
            texts += 1;
            let loops = match translated(&plan) {
                Ok(loops) => loops,
                Err(refusal) => {
                    inside += (refusal == "no,18,0") as u64;
                    continue;
                }
            };
            let mut numbers = plans::Numbers::new(seed ^ 0xabcd);
            run(&plan, &loops, &mut numbers);
            runs += 3;
            if grown {
                vectors.take(&plan);
                lanes.take(&loops);
            }
            let broken = plans::damage(&loops, &mut numbers);
            same("check of loops", &broken, entries::check_loops(&broken), reference::writes(&broken));
            texts += 1;
        }
    }
    assert!(inside > 0, "no plan was refused by 18");
    println!(
        "{texts} texts answered alike by the library and the second implementation, {inside} plans refused by 18; {runs} runs give the plan's value \
         and writes, each plan's the same whole store; {} of the grown plans that were run have vectors, and the loops of {} have lanes",
        vectors.count(),
        lanes.count()
    );
}
