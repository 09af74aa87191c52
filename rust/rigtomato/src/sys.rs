//! The C interface as it is: `include/rigtomato.h`, declaration by declaration.

#[repr(C)]
#[derive(Clone, Copy, Debug, PartialEq, Eq)]
pub struct ReadAnswer {
    pub refusal: u64,
    pub line: u64,
    pub words: u64,
    pub bytes: u64,
}

#[repr(C)]
#[derive(Clone, Copy, Debug, PartialEq, Eq)]
pub struct TextAnswer {
    pub refusal: u64,
    pub bytes: u64,
}

#[repr(C)]
#[derive(Clone, Copy, Debug, PartialEq, Eq)]
pub struct VerdictAnswer {
    pub kind: u64,
    pub value: u64,
    pub units: u64,
}

#[repr(C)]
#[derive(Clone, Copy, Debug, PartialEq, Eq)]
pub struct ValueAnswer {
    pub refusal: u64,
    pub value: u64,
}

#[repr(C)]
#[derive(Clone, Copy, Debug, PartialEq, Eq)]
pub struct GrownAnswer {
    pub refusal: u64,
    pub words: u64,
    pub index_words: u64,
}

extern "C" {
    pub fn rigtomato_read(
        text: *const u8,
        text_len: usize,
        rules: *mut u16,
        rules_len: usize,
        names: *mut u8,
        names_len: usize,
    ) -> ReadAnswer;
    pub fn rigtomato_read_clauses(
        text: *const u8,
        text_len: usize,
        rules: *mut u16,
        rules_len: usize,
        names: *mut u8,
        names_len: usize,
    ) -> ReadAnswer;
    pub fn rigtomato_write(
        rules: *const u16,
        rules_len: usize,
        names: *const u8,
        names_len: usize,
        out: *mut u8,
        out_len: usize,
    ) -> TextAnswer;
    pub fn rigtomato_write_canonical(
        rules: *const u16,
        rules_len: usize,
        names: *const u8,
        names_len: usize,
        out: *mut u8,
        out_len: usize,
    ) -> TextAnswer;
    pub fn rigtomato_translate(
        rules: *const u16,
        rules_len: usize,
        names: *const u8,
        names_len: usize,
        out: *mut u8,
        out_len: usize,
    ) -> TextAnswer;
    pub fn rigtomato_preferred(
        rules: *const u16,
        rules_len: usize,
        set: u64,
        budget: u64,
    ) -> VerdictAnswer;
    pub fn rigtomato_stable(
        rules: *const u16,
        rules_len: usize,
        set: u64,
        budget: u64,
    ) -> VerdictAnswer;
    pub fn rigtomato_next_state(
        rules: *const u16,
        rules_len: usize,
        start: u64,
        budget: u64,
    ) -> VerdictAnswer;
    pub fn rigtomato_place(rules: *const u16, rules_len: usize, set: u64) -> ValueAnswer;
    pub fn rigtomato_index_rules(
        rules: *const u16,
        rules_len: usize,
        out: *mut u16,
        out_len: usize,
    ) -> ValueAnswer;
    pub fn rigtomato_add_rule(
        rules: *const u16,
        rules_len: usize,
        index: *const u16,
        index_len: usize,
        rule: *const u16,
        rule_len: usize,
        rules_out: *mut u16,
        rules_out_len: usize,
        index_out: *mut u16,
        index_out_len: usize,
    ) -> GrownAnswer;
    pub fn rigtomato_flip(
        rules: *const u16,
        rules_len: usize,
        index: *const u16,
        index_len: usize,
        list: *const u16,
        list_len: usize,
        set: u64,
        atom: u64,
        out: *mut u16,
        out_len: usize,
    ) -> ValueAnswer;
}
