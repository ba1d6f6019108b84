// [12.1], [16.7] The entries of the static library as Rust calls them: an answer as the programs print it, and an empty slice lent as a null
// pointer. What ends in `_in` asks the twin that takes a words text first; with no words text, the plain entry.
#[link(name = "vazhdumir", kind = "static")]
extern "C" {
    fn vazhdumir_check_plan(plan: *const u8, plan_len: usize) -> u64;
    fn vazhdumir_translate(plan: *const u8, plan_len: usize, loops: *mut u8, loops_len: usize) -> u64;
    fn vazhdumir_check_loops(loops: *const u8, loops_len: usize) -> u64;
    fn vazhdumir_read_loops(
        loops: *const u8,
        loops_len: usize,
        kinds: *mut u8,
        kinds_len: usize,
        numbers: *mut i32,
        numbers_len: usize,
    ) -> u64;
    fn vazhdumir_need(loops: *const u8, loops_len: usize) -> u64;
    fn vazhdumir_run(loops: *const u8, loops_len: usize, order: u32, store: *mut u8, store_len: usize) -> u64;
    fn vazhdumir_run_rows(
        kinds: *const u8,
        kinds_len: usize,
        numbers: *const i32,
        numbers_len: usize,
        order: u32,
        store: *mut u8,
        store_len: usize,
    ) -> u64;
    fn vazhdumir_look_up(word: *const u8, word_len: usize) -> u64;
    fn vazhdumir_check_plan_in(words: *const u8, words_len: usize, plan: *const u8, plan_len: usize) -> u64;
    fn vazhdumir_translate_in(
        words: *const u8,
        words_len: usize,
        plan: *const u8,
        plan_len: usize,
        loops: *mut u8,
        loops_len: usize,
    ) -> u64;
    fn vazhdumir_check_loops_in(words: *const u8, words_len: usize, loops: *const u8, loops_len: usize) -> u64;
    fn vazhdumir_read_loops_in(
        words: *const u8,
        words_len: usize,
        loops: *const u8,
        loops_len: usize,
        kinds: *mut u8,
        kinds_len: usize,
        numbers: *mut i32,
        numbers_len: usize,
    ) -> u64;
    fn vazhdumir_need_in(words: *const u8, words_len: usize, loops: *const u8, loops_len: usize) -> u64;
    fn vazhdumir_run_in(
        words: *const u8,
        words_len: usize,
        loops: *const u8,
        loops_len: usize,
        order: u32,
        store: *mut u8,
        store_len: usize,
    ) -> u64;
    fn vazhdumir_look_up_in(words: *const u8, words_len: usize, word: *const u8, word_len: usize) -> u64;
}

// [12.2] The refusal, or the value; no two answers are said alike.
fn said(answer: u64) -> String {
    match answer >> 56 {
        0 => answer.to_string(),
        number => format!("no,{number},{}", answer & 0x00ff_ffff_ffff_ffff),
    }
}

fn at<T>(slice: &[T]) -> *const T {
    if slice.is_empty() { std::ptr::null() } else { slice.as_ptr() }
}

fn at_mut<T>(slice: &mut [T]) -> *mut T {
    if slice.is_empty() { std::ptr::null_mut() } else { slice.as_mut_ptr() }
}

pub fn check_plan(plan: &[u8]) -> String {
    check_plan_in(None, plan)
}

pub fn check_plan_in(words: Option<&[u8]>, plan: &[u8]) -> String {
    said(match words {
        None => unsafe { vazhdumir_check_plan(at(plan), plan.len()) },
        Some(words) => unsafe { vazhdumir_check_plan_in(at(words), words.len(), at(plan), plan.len()) },
    })
}

pub fn translate(plan: &[u8], loops: &mut [u8]) -> String {
    translate_in(None, plan, loops)
}

pub fn translate_in(words: Option<&[u8]>, plan: &[u8], loops: &mut [u8]) -> String {
    let (put, len) = (at_mut(loops), loops.len());
    said(match words {
        None => unsafe { vazhdumir_translate(at(plan), plan.len(), put, len) },
        Some(words) => unsafe { vazhdumir_translate_in(at(words), words.len(), at(plan), plan.len(), put, len) },
    })
}

pub fn check_loops(loops: &[u8]) -> String {
    check_loops_in(None, loops)
}

pub fn check_loops_in(words: Option<&[u8]>, loops: &[u8]) -> String {
    said(match words {
        None => unsafe { vazhdumir_check_loops(at(loops), loops.len()) },
        Some(words) => unsafe { vazhdumir_check_loops_in(at(words), words.len(), at(loops), loops.len()) },
    })
}

pub fn read_loops(loops: &[u8], kinds: &mut [u8], numbers: &mut [i32]) -> String {
    read_loops_in(None, loops, kinds, numbers)
}

pub fn read_loops_in(words: Option<&[u8]>, loops: &[u8], kinds: &mut [u8], numbers: &mut [i32]) -> String {
    let (k, k_len, n, n_len) = (at_mut(kinds), kinds.len(), at_mut(numbers), numbers.len());
    said(match words {
        None => unsafe { vazhdumir_read_loops(at(loops), loops.len(), k, k_len, n, n_len) },
        Some(words) => unsafe { vazhdumir_read_loops_in(at(words), words.len(), at(loops), loops.len(), k, k_len, n, n_len) },
    })
}

pub fn need(loops: &[u8]) -> String {
    need_in(None, loops)
}

pub fn need_in(words: Option<&[u8]>, loops: &[u8]) -> String {
    said(match words {
        None => unsafe { vazhdumir_need(at(loops), loops.len()) },
        Some(words) => unsafe { vazhdumir_need_in(at(words), words.len(), at(loops), loops.len()) },
    })
}

pub fn run(loops: &[u8], order: u32, store: &mut [u8]) -> String {
    run_in(None, loops, order, store)
}

pub fn run_in(words: Option<&[u8]>, loops: &[u8], order: u32, store: &mut [u8]) -> String {
    let (cells, len) = (at_mut(store), store.len());
    said(match words {
        None => unsafe { vazhdumir_run(at(loops), loops.len(), order, cells, len) },
        Some(words) => unsafe { vazhdumir_run_in(at(words), words.len(), at(loops), loops.len(), order, cells, len) },
    })
}

pub fn run_rows(kinds: &[u8], numbers: &[i32], order: u32, store: &mut [u8]) -> String {
    said(unsafe { vazhdumir_run_rows(at(kinds), kinds.len(), at(numbers), numbers.len(), order, at_mut(store), store.len()) })
}

pub fn look_up_in(words: Option<&[u8]>, word: &[u8]) -> String {
    said(match words {
        None => unsafe { vazhdumir_look_up(at(word), word.len()) },
        Some(words) => unsafe { vazhdumir_look_up_in(at(words), words.len(), at(word), word.len()) },
    })
}
