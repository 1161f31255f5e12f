//! The call of the library, `out/libtsotest.a`.

unsafe extern "C" {
    fn tsotest_judge(
        text: *const u8,
        text_len: usize,
        out: *mut u8,
        out_len: usize,
        len: *mut usize,
    ) -> u8;
}

/// Writes the text of the verdict on a recording to the front of `out`, and answers it.
pub fn judge<'a>(text: &str, out: &'a mut [u8]) -> &'a [u8] {
    let mut len = 0;
    // The library reads `text` and writes `out`, each within its length, and `len`.
    let status = unsafe {
        tsotest_judge(
            text.as_ptr(),
            text.len(),
            out.as_mut_ptr(),
            out.len(),
            &mut len,
        )
    };
    assert!(status == 0 || status == 2, "no verdict");
    &out[..len]
}
