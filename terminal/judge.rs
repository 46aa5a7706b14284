//! The C interface of the proved library as safe calls, through through.c, which calls it as judge.h declares it.

mod c {
    /// An entry that lends an answer only.
    pub type Short = unsafe extern "C" fn(*const u8, usize, *mut u64, usize) -> bool;

    pub type Plan = unsafe extern "C" fn(
        *const u8,
        usize,
        u64,
        *mut u64,
        usize,
        *mut u64,
        usize,
        *mut u64,
        usize,
        *mut u64,
        usize,
    ) -> bool;

    pub type Demands =
        unsafe extern "C" fn(*const u8, usize, u64, *mut i64, usize, *mut u64, usize) -> bool;

    extern "C" {
        pub fn through_read(
            table: *const u8,
            table_len: usize,
            answer: *mut u64,
            answer_len: usize,
        ) -> bool;
        pub fn through_rounds(
            table: *const u8,
            table_len: usize,
            answer: *mut u64,
            answer_len: usize,
        ) -> bool;
        pub fn through_rounds_mid_shift(
            table: *const u8,
            table_len: usize,
            answer: *mut u64,
            answer_len: usize,
        ) -> bool;
        pub fn through_plan(
            table: *const u8,
            table_len: usize,
            k: u64,
            times: *mut u64,
            times_len: usize,
            starts: *mut u64,
            starts_len: usize,
            room: *mut u64,
            room_len: usize,
            answer: *mut u64,
            answer_len: usize,
        ) -> bool;
        pub fn through_plan_mid_shift(
            table: *const u8,
            table_len: usize,
            k: u64,
            times: *mut u64,
            times_len: usize,
            starts: *mut u64,
            starts_len: usize,
            room: *mut u64,
            room_len: usize,
            answer: *mut u64,
            answer_len: usize,
        ) -> bool;
        pub fn through_demands(
            table: *const u8,
            table_len: usize,
            k: u64,
            row: *mut i64,
            row_len: usize,
            answer: *mut u64,
            answer_len: usize,
        ) -> bool;
        pub fn through_demands_mid_shift(
            table: *const u8,
            table_len: usize,
            k: u64,
            row: *mut i64,
            row_len: usize,
            answer: *mut u64,
            answer_len: usize,
        ) -> bool;
    }
}

// Each call lends whole slices, which are valid for their lengths and, where they are written, apart from each other.

fn short(entry: c::Short, table: &[u8], answer: &mut [u64]) -> bool {
    unsafe {
        entry(
            table.as_ptr(),
            table.len(),
            answer.as_mut_ptr(),
            answer.len(),
        )
    }
}

fn plan_by(
    entry: c::Plan,
    table: &[u8],
    k: u64,
    times: &mut [u64],
    starts: &mut [u64],
    room: &mut [u64],
    answer: &mut [u64],
) -> bool {
    unsafe {
        entry(
            table.as_ptr(),
            table.len(),
            k,
            times.as_mut_ptr(),
            times.len(),
            starts.as_mut_ptr(),
            starts.len(),
            room.as_mut_ptr(),
            room.len(),
            answer.as_mut_ptr(),
            answer.len(),
        )
    }
}

fn demands_by(
    entry: c::Demands,
    table: &[u8],
    k: u64,
    row: &mut [i64],
    answer: &mut [u64],
) -> bool {
    unsafe {
        entry(
            table.as_ptr(),
            table.len(),
            k,
            row.as_mut_ptr(),
            row.len(),
            answer.as_mut_ptr(),
            answer.len(),
        )
    }
}

pub fn read(table: &[u8], answer: &mut [u64]) -> bool {
    short(c::through_read, table, answer)
}

pub fn rounds(table: &[u8], answer: &mut [u64]) -> bool {
    short(c::through_rounds, table, answer)
}

pub fn rounds_mid_shift(table: &[u8], answer: &mut [u64]) -> bool {
    short(c::through_rounds_mid_shift, table, answer)
}

pub fn plan(
    table: &[u8],
    k: u64,
    times: &mut [u64],
    starts: &mut [u64],
    room: &mut [u64],
    answer: &mut [u64],
) -> bool {
    plan_by(c::through_plan, table, k, times, starts, room, answer)
}

pub fn plan_mid_shift(
    table: &[u8],
    k: u64,
    times: &mut [u64],
    starts: &mut [u64],
    room: &mut [u64],
    answer: &mut [u64],
) -> bool {
    plan_by(
        c::through_plan_mid_shift,
        table,
        k,
        times,
        starts,
        room,
        answer,
    )
}

pub fn demands(table: &[u8], k: u64, row: &mut [i64], answer: &mut [u64]) -> bool {
    demands_by(c::through_demands, table, k, row, answer)
}

pub fn demands_mid_shift(table: &[u8], k: u64, row: &mut [i64], answer: &mut [u64]) -> bool {
    demands_by(c::through_demands_mid_shift, table, k, row, answer)
}
