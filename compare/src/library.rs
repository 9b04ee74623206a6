//! The C interface of the library, as include/mulgreddi.h has it. What is declared
//! here is held to the header when this package is built (build.rs): the types by
//! a C compiler, the names of entries, parameters and fields one by one.

/// The answer of every entry.
#[repr(C)]
#[derive(Clone, Copy, Debug, PartialEq, Eq)]
pub struct Answer {
    pub refusal: u64,
    pub first: u64,
    pub second: u64,
}

/// The answer of the comparison of two rules.
#[repr(C)]
#[derive(Clone, Copy, Debug, Default, PartialEq, Eq)]
pub struct Comparison {
    pub refusal: u64,
    pub stricter: u64,
    pub lead: u64,
    pub cycle: u64,
    pub macrostates_a: u64,
    pub transitions_a: u64,
    pub macrostates_b: u64,
    pub transitions_b: u64,
}

extern "C" {
    pub fn mulgreddi_version() -> u32;
    pub fn mulgreddi_check(file: *const u8, file_len: usize) -> Answer;
    pub fn mulgreddi_write(
        n: u32,
        s: u32,
        initial: u32,
        accepting: u32,
        counts: *const u8,
        counts_len: usize,
        clauses: *const u8,
        clauses_len: usize,
        out: *mut u8,
        out_len: usize,
    ) -> Answer;
    pub fn mulgreddi_write_named(
        n: u32,
        s: u32,
        initial: u32,
        accepting: u32,
        counts: *const u8,
        counts_len: usize,
        clauses: *const u8,
        clauses_len: usize,
        names: *const u8,
        names_len: usize,
        out: *mut u8,
        out_len: usize,
    ) -> Answer;
    pub fn mulgreddi_same_rules(
        first: *const u8,
        first_len: usize,
        second: *const u8,
        second_len: usize,
    ) -> Answer;
    pub fn mulgreddi_same_words(
        lead1: *const u8,
        lead1_len: usize,
        cycle1: *const u8,
        cycle1_len: usize,
        lead2: *const u8,
        lead2_len: usize,
        cycle2: *const u8,
        cycle2_len: usize,
    ) -> Answer;
    pub fn mulgreddi_judge(
        file: *const u8,
        file_len: usize,
        lead: *const u8,
        lead_len: usize,
        cycle: *const u8,
        cycle_len: usize,
        masks: *mut u8,
        masks_len: usize,
    ) -> Answer;
    pub fn mulgreddi_build(
        file: *const u8,
        file_len: usize,
        codes: *mut u64,
        codes_count: usize,
        transitions: *mut u64,
        transitions_count: usize,
    ) -> Answer;
    pub fn mulgreddi_judge_table(
        file: *const u8,
        file_len: usize,
        lead: *const u8,
        lead_len: usize,
        cycle: *const u8,
        cycle_len: usize,
        codes: *const u8,
        codes_bytes: usize,
        transitions: *const u8,
        transitions_bytes: usize,
        scratch: *mut u8,
        scratch_len: usize,
    ) -> Answer;
    pub fn mulgreddi_tidy(file: *const u8, file_len: usize, out: *mut u8, out_len: usize)
        -> Answer;
    pub fn mulgreddi_mixed_loop(
        file: *const u8,
        file_len: usize,
        out: *mut u8,
        out_len: usize,
    ) -> Answer;
    pub fn mulgreddi_tidy_word(
        lead: *const u8,
        lead_len: usize,
        cycle: *const u8,
        cycle_len: usize,
        out: *mut u8,
        out_len: usize,
    ) -> Answer;
    pub fn mulgreddi_judge_choices(
        file: *const u8,
        file_len: usize,
        lead: *const u8,
        lead_len: usize,
        cycle: *const u8,
        cycle_len: usize,
        masks: *mut u8,
        masks_len: usize,
        choices: *mut u8,
        choices_len: usize,
    ) -> Answer;
    pub fn mulgreddi_judge_sheet(
        file: *const u8,
        file_len: usize,
        sheet: *const u8,
        sheet_len: usize,
        answers: *mut u8,
        answers_len: usize,
        masks: *mut u8,
        masks_len: usize,
    ) -> Answer;
    pub fn mulgreddi_translate(
        file: *const u8,
        file_len: usize,
        events: *const u8,
        events_len: usize,
        log: *const u8,
        log_len: usize,
        letters: *mut u8,
        letters_len: usize,
    ) -> Answer;
    pub fn mulgreddi_build_trimmed(
        file: *const u8,
        file_len: usize,
        codes: *mut u64,
        codes_count: usize,
        transitions: *mut u64,
        transitions_count: usize,
    ) -> Answer;
    pub fn mulgreddi_build_rejecting(
        file: *const u8,
        file_len: usize,
        codes: *mut u64,
        codes_count: usize,
        transitions: *mut u64,
        transitions_count: usize,
    ) -> Answer;
    pub fn mulgreddi_write_hoa(
        file: *const u8,
        file_len: usize,
        codes: *const u8,
        codes_bytes: usize,
        transitions: *const u8,
        transitions_bytes: usize,
        text: *mut u8,
        text_len: usize,
    ) -> Answer;
    pub fn mulgreddi_read_hoa(
        text: *const u8,
        text_len: usize,
        flags: *mut u8,
        flags_len: usize,
        transitions: *mut u64,
        transitions_count: usize,
    ) -> Answer;
    pub fn mulgreddi_live_start(
        file: *const u8,
        file_len: usize,
        codes: *const u8,
        codes_bytes: usize,
        transitions: *const u8,
        transitions_bytes: usize,
        state: *mut u8,
        state_len: usize,
        set: *mut u8,
        set_len: usize,
    ) -> Answer;
    pub fn mulgreddi_live_arrive(
        file: *const u8,
        file_len: usize,
        letter: u32,
        codes: *const u8,
        codes_bytes: usize,
        transitions: *const u8,
        transitions_bytes: usize,
        state: *mut u8,
        state_len: usize,
        set: *mut u8,
        set_len: usize,
    ) -> Answer;
    pub fn mulgreddi_live_withdraw(
        file: *const u8,
        file_len: usize,
        codes: *const u8,
        codes_bytes: usize,
        transitions: *const u8,
        transitions_bytes: usize,
        state: *mut u8,
        state_len: usize,
        set: *mut u8,
        set_len: usize,
    ) -> Answer;
    pub fn mulgreddi_live_mark(
        file: *const u8,
        file_len: usize,
        mark: u32,
        codes: *const u8,
        codes_bytes: usize,
        transitions: *const u8,
        transitions_bytes: usize,
        state: *mut u8,
        state_len: usize,
        set: *mut u8,
        set_len: usize,
    ) -> Answer;
    pub fn mulgreddi_live_return(
        file: *const u8,
        file_len: usize,
        mark: u32,
        codes: *const u8,
        codes_bytes: usize,
        transitions: *const u8,
        transitions_bytes: usize,
        state: *mut u8,
        state_len: usize,
        set: *mut u8,
        set_len: usize,
    ) -> Answer;
    pub fn mulgreddi_follow_start(
        file: *const u8,
        file_len: usize,
        codes: *const u8,
        codes_bytes: usize,
        transitions: *const u8,
        transitions_bytes: usize,
        set: *mut u8,
        set_len: usize,
    ) -> Answer;
    pub fn mulgreddi_follow(
        file: *const u8,
        file_len: usize,
        letters: *const u8,
        letters_len: usize,
        codes: *const u8,
        codes_bytes: usize,
        transitions: *const u8,
        transitions_bytes: usize,
        set: *mut u8,
        set_len: usize,
    ) -> Answer;
    pub fn mulgreddi_stricter(
        a: *const u8,
        a_len: usize,
        b: *const u8,
        b_len: usize,
        codes_a: *mut u64,
        codes_a_count: usize,
        transitions_a: *mut u64,
        transitions_a_count: usize,
        codes_b: *mut u64,
        codes_b_count: usize,
        transitions_b: *mut u64,
        transitions_b_count: usize,
        word: *mut u8,
        word_len: usize,
        scratch: *mut u8,
        scratch_len: usize,
    ) -> Comparison;
}
