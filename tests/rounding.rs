// [4.3] The quotients of the library beside another way of rounding: of the whole numbers about the exact quotient the one at the least
// distance, of two the even one. The numbers from -40 to 40 and those about the ends of 32 bits, their halves and 16 bits are divided each by
// each, once as input cells and once as literals of a plan. Then the guide's formula for a share that is rounded down.
//
//   rounding
#[allow(dead_code)]
mod entries;

fn nearest(x: i32, y: i32) -> i32 {
    if y == 0 {
        return 0;
    }
    let (x, y) = (x as i64, y as i64);
    let near = x / y - 2..=x / y + 2;
    let number = near.min_by_key(|n| ((x - n * y).abs(), n.rem_euclid(2))).unwrap();
    number.clamp(i32::MIN as i64, i32::MAX as i64) as i32
}

fn numbers() -> Vec<i32> {
    let mut numbers: Vec<i64> = (-40..=40).collect();
    for power in [16, 30, 31] {
        numbers.extend((-3..=3).flat_map(|d| [(1 << power) + d, -(1 << power) + d]));
    }
    numbers.into_iter().filter_map(|n| n.try_into().ok()).collect()
}

fn translated(plan: &str) -> Vec<u8> {
    let mut lent = vec![0; 256];
    let bytes = entries::translate(plan.replace(' ', "\n").as_bytes(), &mut lent).parse().unwrap();
    lent.truncate(bytes);
    lent
}

// The last of these cells when the loops have run.
fn output(loops: &[u8], order: u32, cells: &[i32]) -> i32 {
    let mut store: Vec<u8> = cells.iter().flat_map(|c| c.to_le_bytes()).collect();
    assert_eq!(entries::run(loops, order, &mut store), "1");
    i32::from_le_bytes(store[store.len() - 4..].try_into().unwrap())
}

// From twice the limit one less than the bays is taken, and divided by twice the bays.
fn rounded_down() -> usize {
    let limits = -200..=200;
    for bays in 1..=40 {
        let loops = translated(&format!("plan,1 num,0 div,0 sub,0 mul,0 lit,2 in,0 lit,{} lit,{} ", bays - 1, 2 * bays));
        for limit in limits.clone() {
            assert_eq!(output(&loops, 0, &[limit, 7]), limit.div_euclid(bays), "{limit} by {bays}, rounded down");
        }
    }
    40 * limits.count()
}

fn main() {
    let inputs = translated("plan,2 num,0 num,0 div,0 in,0 in,1 ");
    let (numbers, mut pairs) = (numbers(), 0);
    for &x in &numbers {
        for &y in &numbers {
            let literals = translated(&format!("plan,0 div,0 lit,{x} lit,{y} "));
            let found = (output(&inputs, pairs % 3, &[x, y, 7]), output(&literals, pairs % 3, &[7]));
            assert_eq!(found, (nearest(x, y), nearest(x, y)), "{x} by {y}");
            pairs += 1;
        }
    }
    let shares = rounded_down();
    println!("{pairs} quotients, from input cells and from literals, are the nearest numbers, of two the even one; {shares} shares are rounded down");
}
