//! The library's C functions, as `include/wickorchard.h` declares them and says what they do.
//!
//! A pointer is never null, is aligned, and points to as many elements as the number after it says; what is written to
//! overlaps nothing else that the same call is lent. The functions of [`calls`](crate::calls) see to that.

/// What a call answers: number, place, extra, and the values a to e, of which a call that gives fewer has 0.
pub type Answer = [u64; 8];

/// A function that writes a list as a file.
pub type ListWriter = unsafe extern "C" fn(*const u32, u64, *mut u8, u64, *mut Answer);

/// A function that writes a tree, or a part of one, as a file.
pub type TreeWriter = unsafe extern "C" fn(u64, *const u32, u64, *const u32, u64, *mut u8, u64, *mut Answer);

/// A function that reads such a file.
pub type TreeReader = unsafe extern "C" fn(*const u8, u64, *mut u32, u64, *mut u32, u64, *mut Answer);

extern "C" {
    pub fn wick_rule_check(rules: *const u32, rules_len: u64, answer: *mut Answer);
    pub fn wick_line_all(
        rules: *const u32,
        rules_len: u64,
        header: *const u32,
        header_len: u64,
        out: *mut u32,
        out_len: u64,
        answer: *mut Answer,
    );
    pub fn wick_line_first(rules: *const u32, rules_len: u64, header: *const u32, header_len: u64, answer: *mut Answer);
    pub fn wick_scan_all(
        rules: *const u32,
        rules_len: u64,
        header: *const u32,
        header_len: u64,
        out: *mut u32,
        out_len: u64,
        answer: *mut Answer,
    );
    pub fn wick_scan_first(rules: *const u32, rules_len: u64, header: *const u32, header_len: u64, answer: *mut Answer);
    pub fn wick_rule_misses(
        rules: *const u32,
        rules_len: u64,
        header: *const u32,
        header_len: u64,
        number: u64,
        answer: *mut Answer,
    );
    pub fn wick_tree_all(
        rules: *const u32,
        rules_len: u64,
        nodes: *const u32,
        nodes_len: u64,
        pool: *const u32,
        pool_len: u64,
        header: *const u32,
        header_len: u64,
        out: *mut u32,
        out_len: u64,
        answer: *mut Answer,
    );
    pub fn wick_tree_first(
        rules: *const u32,
        rules_len: u64,
        nodes: *const u32,
        nodes_len: u64,
        pool: *const u32,
        pool_len: u64,
        header: *const u32,
        header_len: u64,
        answer: *mut Answer,
    );
    pub fn wick_tree_check(
        rules: *const u32,
        rules_len: u64,
        nodes: *const u32,
        nodes_len: u64,
        pool: *const u32,
        pool_len: u64,
        answer: *mut Answer,
    );
    pub fn wick_build(
        rules: *const u32,
        rules_len: u64,
        nodes: *mut u32,
        nodes_len: u64,
        pool: *mut u32,
        pool_len: u64,
        answer: *mut Answer,
    );
    pub fn wick_build_some(
        rules: *const u32,
        rules_len: u64,
        most: u64,
        nodes: *mut u32,
        nodes_len: u64,
        pool: *mut u32,
        pool_len: u64,
        answer: *mut Answer,
    );
    pub fn wick_build_on(
        rules: *const u32,
        rules_len: u64,
        rule_count: u64,
        part_nodes: *const u32,
        part_nodes_len: u64,
        part_pool: *const u32,
        part_pool_len: u64,
        most: u64,
        nodes: *mut u32,
        nodes_len: u64,
        pool: *mut u32,
        pool_len: u64,
        answer: *mut Answer,
    );
    pub fn wick_rules_write(rules: *const u32, rules_len: u64, text: *mut u8, text_len: u64, answer: *mut Answer);
    pub fn wick_acl_write(rules: *const u32, rules_len: u64, text: *mut u8, text_len: u64, answer: *mut Answer);
    pub fn wick_rules_read(text: *const u8, text_len: u64, rules: *mut u32, rules_len: u64, answer: *mut Answer);
    pub fn wick_tree_write(
        rule_count: u64,
        nodes: *const u32,
        nodes_len: u64,
        pool: *const u32,
        pool_len: u64,
        text: *mut u8,
        text_len: u64,
        answer: *mut Answer,
    );
    pub fn wick_tree_read(
        text: *const u8,
        text_len: u64,
        nodes: *mut u32,
        nodes_len: u64,
        pool: *mut u32,
        pool_len: u64,
        answer: *mut Answer,
    );
    pub fn wick_part_write(
        rule_count: u64,
        nodes: *const u32,
        nodes_len: u64,
        pool: *const u32,
        pool_len: u64,
        text: *mut u8,
        text_len: u64,
        answer: *mut Answer,
    );
    pub fn wick_part_read(
        text: *const u8,
        text_len: u64,
        nodes: *mut u32,
        nodes_len: u64,
        pool: *mut u32,
        pool_len: u64,
        answer: *mut Answer,
    );
}
