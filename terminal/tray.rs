//! The C interface of the proved judge of trays as a safe call, through through.c, which calls it as tray.h declares it.

mod c {
    extern "C" {
        pub fn through_tray(
            table: *const u8,
            table_len: usize,
            counters: *const u16,
            counters_len: usize,
            running: *mut u16,
            running_len: usize,
            verdicts: *mut u16,
            verdicts_len: usize,
            answer: *mut u64,
            answer_len: usize,
        ) -> bool;
    }
}

// The call lends whole slices, which are valid for their lengths and, where they are written, apart from each other.

pub fn scan(
    table: &[u8],
    counters: &[u16],
    running: &mut [u16],
    verdicts: &mut [u16],
    answer: &mut [u64],
) -> bool {
    unsafe {
        c::through_tray(
            table.as_ptr(),
            table.len(),
            counters.as_ptr(),
            counters.len(),
            running.as_mut_ptr(),
            running.len(),
            verdicts.as_mut_ptr(),
            verdicts.len(),
            answer.as_mut_ptr(),
            answer.len(),
        )
    }
}
