//! The C functions of include/yithrel.h.

extern "C" {
    fn yithrel_judge(table: *const u8, table_len: usize, rules: *const u8, rules_len: usize, has_rules: u64) -> u64;
    fn yithrel_run(
        table: *const u8,
        table_len: usize,
        list: *const u8,
        list_len: usize,
        rules: *const u8,
        rules_len: usize,
        has_rules: u64,
        text: *mut u8,
        text_len: usize,
    ) -> u64;
}

/// With `has` 0 there is no rule file, whatever `rules` is.
pub fn judge(table: &[u8], rules: &[u8], has: u64) -> u64 {
    // The function reads the bytes of table and rules, and changes nothing.
    unsafe { yithrel_judge(table.as_ptr(), table.len(), rules.as_ptr(), rules.len(), has) }
}

pub fn run(table: &[u8], list: &[u8], rules: &[u8], has: u64, text: &mut [u8]) -> u64 {
    // The function reads the bytes of table, list and rules, and writes to the bytes of the text only.
    unsafe {
        yithrel_run(
            table.as_ptr(),
            table.len(),
            list.as_ptr(),
            list.len(),
            rules.as_ptr(),
            rules.len(),
            has,
            text.as_mut_ptr(),
            text.len(),
        )
    }
}
