//! The C interface of the proved converter as safe calls, through through.c, which calls it as card.h declares it.

mod c {
    extern "C" {
        pub fn through_to_table(
            card: *const u8,
            card_len: usize,
            table: *mut u8,
            table_len: usize,
            answer: *mut u64,
            answer_len: usize,
        ) -> bool;
        pub fn through_from_table(
            table: *const u8,
            table_len: usize,
            card: *mut u8,
            card_len: usize,
            answer: *mut u64,
            answer_len: usize,
        ) -> bool;
    }
}

// Each call lends whole slices, which are valid for their lengths and, where they are written, apart from each other.

pub fn to_table(card: &[u8], table: &mut [u8], answer: &mut [u64]) -> bool {
    unsafe {
        c::through_to_table(
            card.as_ptr(),
            card.len(),
            table.as_mut_ptr(),
            table.len(),
            answer.as_mut_ptr(),
            answer.len(),
        )
    }
}

pub fn from_table(table: &[u8], card: &mut [u8], answer: &mut [u64]) -> bool {
    unsafe {
        c::through_from_table(
            table.as_ptr(),
            table.len(),
            card.as_mut_ptr(),
            card.len(),
            answer.as_mut_ptr(),
            answer.len(),
        )
    }
}
