//! The proved library, called as C calls it: a slice is a pointer and a length.

pub mod compared;
pub mod guarded;
pub mod wide;

use reference::width::Width;

mod exported {
    extern "C" {
        pub fn fresh(image: *mut u16, words: usize) -> u16;
        pub fn judge(image: *const u16, words: usize) -> u16;
        pub fn batch(
            image: *mut u16,
            words: usize,
            steps: *const u8,
            bytes: usize,
            answers: *mut u16,
            answer_words: usize,
        ) -> u16;
        pub fn service_map(image: *const u16, words: usize, output: *mut u8, output_bytes: usize) -> u16;
        pub fn judge_report(
            first: *const u16,
            first_words: usize,
            second: *const u16,
            second_words: usize,
            report: *const u8,
            report_bytes: usize,
            scratch: *mut u16,
            scratch_words: usize,
        ) -> u16;
    }
}

pub fn fresh(image: &mut [u16]) -> u16 {
    // Safe: the function takes every slice and touches nothing else.
    unsafe { exported::fresh(image.as_mut_ptr(), image.len()) }
}

pub fn judge(image: &[u16]) -> u16 {
    // Safe: as above, and it writes nothing.
    unsafe { exported::judge(image.as_ptr(), image.len()) }
}

pub fn batch(image: &mut [u16], steps: &[u8], answers: &mut [u16]) -> u16 {
    // Safe: as above, and the three slices are apart.
    unsafe {
        exported::batch(
            image.as_mut_ptr(),
            image.len(),
            steps.as_ptr(),
            steps.len(),
            answers.as_mut_ptr(),
            answers.len(),
        )
    }
}

pub fn service_map(image: &[u16], output: &mut [u8]) -> u16 {
    // Safe: as above, and it writes nothing but the output.
    unsafe { exported::service_map(image.as_ptr(), image.len(), output.as_mut_ptr(), output.len()) }
}

pub fn judge_report(first: &[u16], second: &[u16], report: &[u8], scratch: &mut [u16]) -> u16 {
    // Safe: as above, and it writes nothing but the scratch.
    unsafe {
        exported::judge_report(
            first.as_ptr(),
            first.len(),
            second.as_ptr(),
            second.len(),
            report.as_ptr(),
            report.len(),
            scratch.as_mut_ptr(),
            scratch.len(),
        )
    }
}

/// The store of such words, as the library exports it.
pub trait Exported: Width {
    fn fresh(image: &mut [Self]) -> u16;
    fn judge(image: &[Self]) -> u16;
    fn batch(image: &mut [Self], steps: &[u8], answers: &mut [Self]) -> u16;
}

impl Exported for u16 {
    fn fresh(image: &mut [u16]) -> u16 {
        fresh(image)
    }

    fn judge(image: &[u16]) -> u16 {
        judge(image)
    }

    fn batch(image: &mut [u16], steps: &[u8], answers: &mut [u16]) -> u16 {
        batch(image, steps, answers)
    }
}

impl Exported for u32 {
    #[inline]
    fn fresh(image: &mut [u32]) -> u16 {
        wide::fresh(image)
    }

    #[inline]
    fn judge(image: &[u32]) -> u16 {
        wide::judge(image)
    }

    #[inline]
    fn batch(image: &mut [u32], steps: &[u8], answers: &mut [u32]) -> u16 {
        wide::batch(image, steps, answers)
    }
}
