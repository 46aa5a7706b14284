//! The C interface of the proved panel as safe calls, through through.c, which calls it as panel.h declares it.

mod c {
    #[repr(C)]
    pub struct Widest {
        pub number: u64,
        pub place: u64,
        pub mark: u64,
        pub first: f64,
        pub last: f64,
    }

    extern "C" {
        pub fn through_windows(
            table: *const u8,
            table_len: usize,
            k: u64,
            marks: *mut u8,
            marks_len: usize,
            times: *mut f64,
            times_len: usize,
            answer: *mut u64,
            answer_len: usize,
        ) -> bool;
        pub fn through_widest(table: *const u8, table_len: usize, k: u64) -> Widest;
    }
}

// Each call lends whole slices, which are valid for their lengths and, where they are written, apart from each other.

pub fn windows(
    table: &[u8],
    k: u64,
    marks: &mut [u8],
    times: &mut [f64],
    answer: &mut [u64],
) -> bool {
    unsafe {
        c::through_windows(
            table.as_ptr(),
            table.len(),
            k,
            marks.as_mut_ptr(),
            marks.len(),
            times.as_mut_ptr(),
            times.len(),
            answer.as_mut_ptr(),
            answer.len(),
        )
    }
}

/// Number, place and mark, and two times.
pub fn widest(table: &[u8], k: u64) -> ([u64; 3], [f64; 2]) {
    let c::Widest {
        number,
        place,
        mark,
        first,
        last,
    } = unsafe { c::through_widest(table.as_ptr(), table.len(), k) };
    ([number, place, mark], [first, last])
}
