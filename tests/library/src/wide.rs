//! The wide store of the proved library, called as C calls it.

mod exported {
    extern "C" {
        pub fn wide_fresh(image: *mut u32, words: usize) -> u16;
        pub fn wide_judge(image: *const u32, words: usize) -> u16;
        pub fn wide_batch(
            image: *mut u32,
            words: usize,
            steps: *const u8,
            bytes: usize,
            answers: *mut u32,
            answer_words: usize,
        ) -> u16;
    }
}

#[inline]
pub fn fresh(image: &mut [u32]) -> u16 {
    // Safe: the function takes every slice and touches nothing else.
    unsafe { exported::wide_fresh(image.as_mut_ptr(), image.len()) }
}

#[inline]
pub fn judge(image: &[u32]) -> u16 {
    // Safe: as above, and it writes nothing.
    unsafe { exported::wide_judge(image.as_ptr(), image.len()) }
}

#[inline]
pub fn batch(image: &mut [u32], steps: &[u8], answers: &mut [u32]) -> u16 {
    // Safe: as above, and the three slices are apart.
    unsafe {
        exported::wide_batch(
            image.as_mut_ptr(),
            image.len(),
            steps.as_ptr(),
            steps.len(),
            answers.as_mut_ptr(),
            answers.len(),
        )
    }
}
