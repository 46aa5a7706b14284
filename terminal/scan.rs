//! The C interface of the proved judge of scans as safe calls, through through.c, which calls it as scan.h declares it.

mod c {
    extern "C" {
        pub fn through_log_in(counter: u16, running: *mut u16, running_len: usize) -> bool;
        pub fn through_scan(
            table: *const u8,
            table_len: usize,
            counter: u16,
            running: *mut u16,
            running_len: usize,
            answer: *mut u64,
            answer_len: usize,
        ) -> bool;
    }
}

// Each call lends whole slices, which are valid for their lengths and, where they are written, apart from each other.

pub fn log_in(counter: u16, running: &mut [u16]) -> bool {
    unsafe { c::through_log_in(counter, running.as_mut_ptr(), running.len()) }
}

pub fn one(table: &[u8], counter: u16, running: &mut [u16], answer: &mut [u64]) -> bool {
    unsafe {
        c::through_scan(
            table.as_ptr(),
            table.len(),
            counter,
            running.as_mut_ptr(),
            running.len(),
            answer.as_mut_ptr(),
            answer.len(),
        )
    }
}
