// Loops that the library makes from a plan, as rows, and its forward run of them.
use crate::entries;
use crate::plans::Numbers;
use crate::reference::WORDS;
use crate::stepper::{unfold, Layout, Unfolded};

pub struct Made {
    kinds: Vec<u8>,
    numbers: Vec<i32>,
    pub writes: u64,
    need: usize,
}

// The loops of a plan, in the words given, if it is translated and they have at most so many writes.
pub fn made(words: Option<&[u8]>, plan: &[u8], most: u64) -> Option<Made> {
    let mut text = vec![0; 65536];
    let bytes = entries::translate_in(words, plan, &mut text).parse().ok()?;
    text.truncate(bytes);
    let writes = entries::check_loops_in(words, &text).parse().unwrap();
    if writes > most {
        return None;
    }
    let (mut kinds, mut numbers) = (vec![0; 4096], vec![0; 4096]);
    let rows = entries::read_loops_in(words, &text, &mut kinds, &mut numbers).parse().unwrap();
    kinds.truncate(rows);
    numbers.truncate(rows);
    Some(Made { kinds, numbers, writes, need: entries::need_in(words, &text).parse().unwrap() })
}

impl Made {
    // Whether they have a `lanes`.
    pub fn has_lanes(&self) -> bool {
        self.kinds.iter().any(|kind| WORDS[*kind as usize] == "lanes")
    }

    // The steps, with the regions in these places.
    pub fn unfold(&self, layout: Layout) -> Unfolded {
        let loops = unfold(&self.kinds, &self.numbers, layout);
        assert!(layout == Layout::Shared || loops.need == self.need, "the need is {}, but the stepper's {}", self.need, loops.need);
        loops
    }

    // A store of random numbers, three cells longer than the need.
    pub fn store(&self, numbers: &mut Numbers) -> Vec<i32> {
        (0..self.need + 3).map(|_| numbers.below(2001) as i32 - 1000).collect()
    }

    // The whole store behind the library's run in order 0, whose writes are those counted.
    pub fn forward(&self, store: &[i32]) -> Vec<i32> {
        let mut bytes: Vec<u8> = store.iter().flat_map(|cell| cell.to_le_bytes()).collect();
        assert_eq!(entries::run_rows(&self.kinds, &self.numbers, 0, &mut bytes), self.writes.to_string());
        bytes.chunks_exact(4).map(|four| i32::from_le_bytes(four.try_into().unwrap())).collect()
    }
}
