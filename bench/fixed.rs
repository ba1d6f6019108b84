// What a check and a run cost beside the writes: loops of one `set`, whose value is a sum, of 6, 250 and 4,090 rows: microseconds for the check
// of their text, and for a run of their rows, which are checked there too. The least of many short turns.
use crate::doors::timed;

#[link(name = "vazhdumir", kind = "static")]
extern "C" {
    fn vazhdumir_check_loops(loops: *const u8, loops_len: usize) -> u64;
    fn vazhdumir_read_loops(
        loops: *const u8,
        loops_len: usize,
        kinds: *mut u8,
        kinds_len: usize,
        numbers: *mut i32,
        numbers_len: usize,
    ) -> u64;
    fn vazhdumir_run_rows(
        kinds: *const u8,
        kinds_len: usize,
        numbers: *const i32,
        numbers_len: usize,
        order: u32,
        store: *mut u8,
        store_len: usize,
    ) -> u64;
}

fn loops(rows: usize) -> String {
    let sums = (rows - 6) / 2;
    format!("loops,0\ncells,1\nset,0\nout,0\nlit,0\n{}{}", "add,0\n".repeat(sums), "lit,7\n".repeat(sums + 1))
}

pub fn print() {
    println!("{:22} {:>8} {:>8}", "microseconds", "check", "run");
    for rows in [6, 250, 4090] {
        let text = loops(rows);
        let (mut kinds, mut numbers, mut store) = (vec![0u8; rows], vec![0i32; rows], [0u8; 4]);
        let read = unsafe { vazhdumir_read_loops(text.as_ptr(), text.len(), kinds.as_mut_ptr(), rows, numbers.as_mut_ptr(), rows) };
        assert_eq!(read, rows as u64);
        let check = timed(|| assert_eq!(unsafe { vazhdumir_check_loops(text.as_ptr(), text.len()) }, 1));
        let (cells, len) = (store.as_mut_ptr(), store.len());
        let run = timed(|| assert_eq!(unsafe { vazhdumir_run_rows(kinds.as_ptr(), rows, numbers.as_ptr(), rows, 0, cells, len) }, 1));
        println!("{:22} {check:>8.1} {run:>8.1}", format!("{rows} rows"));
    }
}
