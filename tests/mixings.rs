// [9.14] Every mixing of the loops that the library makes from a plan leaves the whole store, and makes the writes, as its forward run does:
// small plans in all their mixings, and random plans in all where these are few, else in some. That the comparison can fail is shown by
// loops written by hand, and by plans whose rounds have their regions on the same cells: these end in several ways. The rounds of a `lanes`
// mix as those of a `par` do ([18.10]), and with those of a `par` around it or inside it.
//
//   mixings COUNT
use std::collections::BTreeSet;

#[allow(dead_code)]
mod entries;
mod made;
#[allow(dead_code)]
mod plans;
#[allow(dead_code)]
mod reference;
#[allow(dead_code)]
mod stepper;

use made::Made;
use plans::Numbers;
use stepper::{Layout, Unfolded};

// As many mixings as eight rounds of one step have.
const FEW: u128 = 40_320;

const WRITES: u64 = 20_000;

// Small plans, and whether the output of some mixing of each goes wrong where the rounds have their regions on the same cells.
const SMALL: [(&str, bool); 18] = [
    ("plan,1 arr,4 num,0 mappar,0 in,0 neg,0 var,0", false),
    ("plan,1 arr,2 arr,2 num,0 mappar,0 in,0 mappar,0 var,0 add,0 var,0 lit,1", false),
    ("plan,1 arr,3 num,0 mappar,0 mappar,0 in,0 neg,0 var,0 add,0 var,0 lit,1", false),
    ("plan,1 arr,3 num,0 redseq,0 lit,0 mappar,0 in,0 mul,0 var,0 var,0 add,0 var,0 var,1", false),
    ("plan,2 arr,2 num,0 arr,2 num,0 redseq,0 in,1 in,0 mappar,0 var,0 add,0 var,0 var,2", false),
    ("plan,2 arr,2 num,0 arr,2 num,0 mappar,0 in,0 redseq,0 var,0 in,1 add,0 var,0 var,1", true),
    ("plan,2 arr,2 num,0 arr,2 num,0 mappar,0 in,0 idx,1 mappar,0 in,1 mul,0 var,0 var,1", true),
    ("plan,2 arr,2 num,0 arr,1 num,0 mappar,0 in,0 redseq,0 pair,0 var,0 lit,3 in,1 pair,0 snd,0 var,0 fst,0 var,0", true),
    ("plan,2 arr,2 arr,1 num,0 arr,1 num,0 mappar,0 in,0 mappar,0 var,0 redseq,0 var,0 in,1 sub,0 var,0 var,1", true),
    // A vector assigned; its lanes mapped, once and twice.
    ("plan,1 vec,8 in,0", false),
    ("plan,1 vec,4 mapvec,0 in,0 neg,0 var,0", false),
    ("plan,1 vec,4 mapvec,0 mapvec,0 in,0 neg,0 var,0 add,0 var,0 at,3 in,0", false),
    // A `lanes` inside a `par`: each round reads the region that its lanes wrote.
    ("plan,1 arr,4 num,0 asscal,0 mappar,0 asvec,2 in,0 mapvec,0 var,0 mul,0 var,0 at,1 var,1", false),
    ("plan,1 arr,2 vec,2 mappar,0 in,0 at,1 mapvec,0 var,0 neg,0 var,0", true),
    // A vector total: its start, its next ones and the last are assigned lane by lane.
    ("plan,1 arr,2 vec,2 redseq,0 idx,0 in,0 in,0 mapvec,0 var,0 sub,0 var,0 at,0 var,2", false),
    // A region inside a `lanes`, and a `par` inside a `lanes`.
    ("plan,2 vec,2 arr,2 num,0 mapvec,0 in,0 redseq,0 var,0 in,1 add,0 var,0 var,1", true),
    ("plan,2 vec,2 arr,2 num,0 mapvec,0 in,0 idx,1 mappar,0 in,1 mul,0 var,0 var,1", true),
    ("plan,2 arr,2 vec,2 arr,1 num,0 mappar,0 in,0 mapvec,0 var,0 idx,0 mappar,0 in,1 sub,0 var,0 var,1", true),
];

// Loops by hand whose rounds read what other rounds write.
const BY_HAND: [&str; 5] = [
    "loops,0 cells,2 new,1 par,2 seq,0 set,0 loc,0 lit,0 add,0 loc,0 lit,0 lit,1 set,0 out,0 ctr,0 loc,0 lit,0",
    "loops,1 cells,3 cells,3 new,1 par,3 seq,0 set,0 loc,0 lit,0 in,0 ctr,0 set,0 out,0 ctr,0 loc,0 lit,0",
    "loops,0 cells,2 new,1 lanes,2 seq,0 set,0 loc,0 lit,0 add,0 loc,0 lit,0 lit,1 set,0 out,0 ctr,0 loc,0 lit,0",
    // A `lanes` inside a `par`, and a `par` inside a `lanes`.
    "loops,0 cells,4 new,1 par,2 lanes,2 seq,0 set,0 loc,0 lit,0 add,0 loc,0 lit,0 lit,1 set,0 out,0 plus,0 times,2 ctr,1 ctr,0 loc,0 lit,0",
    "loops,0 cells,4 new,1 lanes,2 par,2 seq,0 set,0 loc,0 lit,0 add,0 loc,0 lit,0 lit,1 set,0 out,0 plus,0 times,2 ctr,1 ctr,0 loc,0 lit,0",
];

fn text(rows: &str) -> Vec<u8> {
    rows.split(' ').flat_map(|row| [row.as_bytes(), b"\n"].concat()).collect()
}

// All mixings, each once, and as many as are counted without making them.
fn all(loops: &Unfolded) -> Vec<Vec<usize>> {
    let mixings = loops.mixings();
    assert_eq!(mixings.iter().collect::<BTreeSet<_>>().len() as u128, loops.work.count().1, "mixings are missing");
    mixings
}

fn ends(loops: &Unfolded, store: &[i32]) -> BTreeSet<Vec<i32>> {
    all(loops).iter().map(|mixing| loops.end(mixing, store)).collect()
}

// Compares each mixing with the library's forward run of the same rows.
fn compare(plan: &[u8], made: &Made, mixings: &[Vec<usize>], store: &[i32]) {
    let (loops, forward) = (made.unfold(Layout::Own), made.forward(store));
    for mixing in mixings {
        let (end, writes) = (loops.end(mixing, store), mixing.len() as u64);
        if (&end, writes) != (&forward, made.writes) {
            println!("{writes} steps, mixed as {mixing:?}, end with\n{end:?}\nbut the {} of the forward run with\n{forward:?}", made.writes);
            println!("from {store:?}, of\n{}", String::from_utf8_lossy(plan));
            std::process::exit(1);
        }
    }
}

// Whether some mixing of a plan's steps leaves another output, if the rounds of each `par` have their regions on the same cells.
fn differs_on_shared_cells(made: &Made, mixings: &[Vec<usize>], store: &[i32]) -> bool {
    let loops = made.unfold(Layout::Shared);
    let forward = loops.end(&loops.mixing(|_| 0), store);
    mixings.iter().any(|mixing| loops.end(mixing, store)[..loops.regions] != forward[..loops.regions])
}

// How many mixings they have, and how many of the plans have lanes.
fn small() -> (usize, usize) {
    let (mut count, mut lanes) = (0, 0);
    for (rows, shown) in SMALL {
        let plan = text(rows);
        let made = made::made(None, &plan, WRITES).unwrap();
        let (mixings, store) = (all(&made.unfold(Layout::Own)), made.store(&mut Numbers::new(1)));
        assert!(mixings.len() > 1, "{rows} has one mixing");
        compare(&plan, &made, &mixings, &store);
        assert_eq!(differs_on_shared_cells(&made, &mixings, &store), shown, "on shared cells, {rows}");
        count += mixings.len();
        lanes += made.has_lanes() as usize;
    }
    (count, lanes)
}

// [9.14] No promise for loops by hand: they have more ends than the three orders lead to. The least such number.
fn by_hand() -> usize {
    let least = BY_HAND.map(|rows| {
        let (loops, store) = (text(rows), (1..=9).collect::<Vec<i32>>());
        let (mut kinds, mut numbers) = (vec![0; 99], vec![0; 99]);
        let rows = entries::read_loops(&loops, &mut kinds, &mut numbers).parse().unwrap();
        let found = ends(&stepper::unfold(&kinds[..rows], &numbers[..rows], Layout::Own), &store);
        let by_order = |order| {
            let mut bytes: Vec<u8> = store.iter().flat_map(|cell| cell.to_le_bytes()).collect();
            entries::run(&loops, order, &mut bytes);
            bytes.chunks_exact(4).map(|four| i32::from_le_bytes(four.try_into().unwrap())).collect::<Vec<i32>>()
        };
        let named: BTreeSet<_> = (0..3).map(by_order).collect();
        assert!(named.is_subset(&found) && named.len() < found.len(), "{found:?} beside {named:?}");
        found.len()
    });
    *least.iter().min().unwrap()
}

// All mixings where they are few; else the rounds step in turn, and then at random, seven times.
fn chosen(loops: &Unfolded, numbers: &mut Numbers) -> Vec<Vec<usize>> {
    if loops.work.count().1 <= FEW {
        return all(loops);
    }
    let mut turn = 0;
    let in_turn = loops.mixing(|count| {
        turn += 1;
        turn % count
    });
    let random = (0..7).map(|_| loops.mixing(|count| numbers.below(count as u64) as usize));
    std::iter::once(in_turn).chain(random).collect()
}

fn main() {
    let count: u64 = std::env::args().nth(1).unwrap().parse().unwrap();
    let ((small, small_lanes), by_hand) = (small(), by_hand());
    let mut lanes = plans::Share::of_lanes();
    let (mut plans, mut whole, mut mixed, mut shown, mut seed) = (0, 0, 0, 0, 0);
    while plans < count {
        let (plan, mut numbers) = (plans::plan(seed), Numbers::new(seed ^ 0x6d69));
        seed += 1;
        let Some(made) = made::made(None, &plan, WRITES) else { continue };
        let loops = made.unfold(Layout::Own);
        if loops.work.count().1 == 1 {
            continue;
        }
        let (mixings, store) = (chosen(&loops, &mut numbers), made.store(&mut numbers));
        compare(&plan, &made, &mixings, &store);
        plans += 1;
        lanes.add(made.has_lanes());
        whole += (loops.work.count().1 <= FEW) as u64;
        mixed += mixings.len();
        shown += differs_on_shared_cells(&made, &mixings, &store) as u64;
    }
    assert!(whole > 0 && whole < plans && shown > 0);
    println!(
        "{} small plans, {small_lanes} with lanes, in all {small} mixings, and {plans} random plans, {} with lanes, in {mixed}, {whole} of them in \
         all: each leaves the whole store and the writes of the library's forward run. With rounds on the same cells the output of {shown} goes \
         wrong; loops by hand have {by_hand} ends and more",
        SMALL.len(),
        lanes.count()
    );
}
