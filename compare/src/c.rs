//! The C interface as include/shares.h has it, and bench/plain.h a part of it
//! again. A slice passes as a pointer and a length, in the parameters' order.

/// Calls that two libraries have: for each, its type and its two names.
macro_rules! in_both {
    ($($call:ident: $proved:ident, $plain:ident = fn($($name:ident: $type:ty),*) -> $answer:ty;)*) => {
        $(pub type $call = unsafe extern "C" fn($($name: $type),*) -> $answer;)*
        extern "C" {
            $(
                pub fn $proved($($name: $type),*) -> $answer;
                pub fn $plain($($name: $type),*) -> $answer;
            )*
        }
    };
}

in_both! {
    Allocate: shares_allocate, plain_allocate = fn(
        sheet: *const u8,
        sheet_len: usize,
        owners: *mut u8,
        owners_len: usize,
        prices: *mut u8,
        prices_len: usize,
        scratch: *mut u8,
        scratch_len: usize,
        moves: *mut u64,
        cuts: *mut u8
    ) -> u8;
    CheckList: shares_check_list, plain_check_list = fn(
        sheet: *const u8,
        sheet_len: usize,
        owners: *const u8,
        owners_len: usize,
        slack: u8,
        dominating: *mut u8,
        dominating_len: usize
    ) -> u32;
    CheckPrices: shares_check_prices, plain_check_prices = fn(
        sheet: *const u8,
        sheet_len: usize,
        owners: *const u8,
        owners_len: usize,
        prices: *const u8,
        prices_len: usize
    ) -> u32;
    Join: shares_join, plain_join = fn(
        first: *const u8,
        first_len: usize,
        second: *const u8,
        second_len: usize,
        joined: *mut u8,
        joined_len: usize,
        written: *mut usize
    ) -> u8;
    Measures: shares_measures, plain_measures = fn(
        sheet: *const u8,
        sheet_len: usize,
        measures: *mut u32
    ) -> u8;
}

extern "C" {
    pub fn shares_allocate_recorded(
        sheet: *const u8,
        sheet_len: usize,
        owners: *mut u8,
        owners_len: usize,
        prices: *mut u8,
        prices_len: usize,
        scratch: *mut u8,
        scratch_len: usize,
        record: *mut u8,
        record_len: usize,
        moves: *mut u64,
        cuts: *mut u8,
    ) -> u8;
    pub fn shares_show_marks(
        first: *const u8,
        first_len: usize,
        second: *const u8,
        second_len: usize,
        person: usize,
        chore: usize,
        strand: *mut u8,
        start: *mut usize,
        size: *mut usize,
    ) -> u8;
    pub fn shares_measured_list(
        sheet: *const u8,
        sheet_len: usize,
        owners: *mut u8,
        owners_len: usize,
    ) -> u8;
    pub fn shares_find_sheet(
        book: *const u8,
        book_len: usize,
        sheet_number: usize,
        start: *mut usize,
        size: *mut usize,
    ) -> u8;
    pub fn shares_allocate_book(
        book: *const u8,
        book_len: usize,
        owners: *mut u8,
        owners_len: usize,
        prices: *mut u8,
        prices_len: usize,
        scratch: *mut u8,
        scratch_len: usize,
        refusals: *mut u8,
        moves: *mut u64,
        cuts: *mut u8,
        firsts: *mut u32,
        tally: *mut u64,
    ) -> u8;
}
