//! The functions of the archive, as `gazrieksne.h` declares them.

/// A function that plans with whole tables: `gz_plan` or `gz_keep`.
pub type Planning = unsafe extern "C" fn(
    sheet: *const u8,
    sheet_len: usize,
    output: *mut u16,
    output_len: usize,
    costs: *mut u64,
    costs_len: usize,
    choices: *mut u16,
    choices_len: usize,
    answer: *mut [u64; 3],
) -> u64;

/// The same with a span of them: `gz_plan_span` or `gz_keep_span`.
pub type PlanningInSpan = unsafe extern "C" fn(
    sheet: *const u8,
    sheet_len: usize,
    output: *mut u16,
    output_len: usize,
    costs: *mut u64,
    costs_len: usize,
    choices: *mut u16,
    choices_len: usize,
    first: usize,
    number: usize,
    answer: *mut [u64; 3],
) -> u64;

unsafe extern "C" {
    pub fn gz_read(sheet: *const u8, sheet_len: usize, counts: *mut [u64; 5]) -> u64;
    pub fn gz_service(
        sheet: *const u8,
        sheet_len: usize,
        number: usize,
        record: *mut [u64; 1],
    ) -> u64;
    pub fn gz_cabinet(
        sheet: *const u8,
        sheet_len: usize,
        number: usize,
        record: *mut [u64; 7],
    ) -> u64;
    pub fn gz_stream(
        sheet: *const u8,
        sheet_len: usize,
        number: usize,
        record: *mut [u64; 3],
    ) -> u64;
    pub fn gz_barred(
        sheet: *const u8,
        sheet_len: usize,
        number: usize,
        record: *mut [u64; 2],
    ) -> u64;
    pub fn gz_check(
        sheet: *const u8,
        sheet_len: usize,
        plan: *const u16,
        plan_len: usize,
        answer: *mut [u64; 2],
    ) -> u64;
    pub fn gz_plan(
        sheet: *const u8,
        sheet_len: usize,
        output: *mut u16,
        output_len: usize,
        costs: *mut u64,
        costs_len: usize,
        choices: *mut u16,
        choices_len: usize,
        answer: *mut [u64; 3],
    ) -> u64;
    pub fn gz_keep(
        sheet: *const u8,
        sheet_len: usize,
        output: *mut u16,
        output_len: usize,
        costs: *mut u64,
        costs_len: usize,
        choices: *mut u16,
        choices_len: usize,
        answer: *mut [u64; 3],
    ) -> u64;
    pub fn gz_edit(
        sheet: *const u8,
        sheet_len: usize,
        cabinet: usize,
        output: *mut u16,
        output_len: usize,
        costs: *mut u64,
        costs_len: usize,
        choices: *mut u16,
        choices_len: usize,
        answer: *mut [u64; 3],
    ) -> u64;
    pub fn gz_plan_span(
        sheet: *const u8,
        sheet_len: usize,
        output: *mut u16,
        output_len: usize,
        costs: *mut u64,
        costs_len: usize,
        choices: *mut u16,
        choices_len: usize,
        first: usize,
        number: usize,
        answer: *mut [u64; 3],
    ) -> u64;
    pub fn gz_keep_span(
        sheet: *const u8,
        sheet_len: usize,
        output: *mut u16,
        output_len: usize,
        costs: *mut u64,
        costs_len: usize,
        choices: *mut u16,
        choices_len: usize,
        first: usize,
        number: usize,
        answer: *mut [u64; 3],
    ) -> u64;
    pub fn gz_edit_span(
        sheet: *const u8,
        sheet_len: usize,
        cabinet: usize,
        output: *mut u16,
        output_len: usize,
        costs: *mut u64,
        costs_len: usize,
        choices: *mut u16,
        choices_len: usize,
        first: usize,
        number: usize,
        answer: *mut [u64; 3],
    ) -> u64;
    pub fn gz_bill(
        sheet: *const u8,
        sheet_len: usize,
        plan: *const u16,
        plan_len: usize,
        block_price: u64,
        slot_price: u64,
        tax_rate: u64,
        lines: *mut u64,
        lines_len: usize,
        answer: *mut [u64; 4],
    ) -> u64;
    pub fn gz_tidy(
        sheet: *const u8,
        sheet_len: usize,
        output: *mut u8,
        output_len: usize,
        answer: *mut [u64; 2],
    ) -> u64;
    pub fn gz_weigh(best: u64, placed: u64, rest: u64, link: u64, answer: *mut [u64; 1]) -> u64;
    pub fn gz_bound(services: usize, cabinets: usize, answer: *mut [u64; 2]) -> u64;
}
