//! The entry for a host in C, from the static library under test.

unsafe extern "C" {
    fn edzl_admit(text: *const u8, len: usize, cores: u32) -> u32;
}

/// 0 not admitted, 1 admitted, 100 plus the refusal number otherwise.
pub fn admit(text: &[u8], cores: u32) -> u32 {
    // SAFETY: the pointer and the length are those of one slice, which is only read.
    unsafe { edzl_admit(text.as_ptr(), text.len(), cores) }
}
