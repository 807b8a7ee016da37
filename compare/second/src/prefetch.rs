//! Hints for the processor's cache.
//!
//! Entries, texts and marks are met in an order that memory does not know, and
//! a large file does not fit in the near caches. Asking for a line some steps
//! before it is read hides most of the wait.

/// Asks for the line of a byte, if there is such a byte.
#[inline(always)]
#[allow(unsafe_code)]
pub fn prefetch<T>(items: &[T], at: usize) {
    #[cfg(target_arch = "x86_64")]
    if let Some(item) = items.get(at) {
        use std::arch::x86_64::{_mm_prefetch, _MM_HINT_T0};
        // A hint on an address inside a slice; it changes nothing.
        unsafe { _mm_prefetch::<_MM_HINT_T0>(std::ptr::from_ref(item).cast()) }
    }
    #[cfg(not(target_arch = "x86_64"))]
    let _ = (items, at);
}

/// Asks for the lines of a text: most lie within two.
#[inline(always)]
pub fn prefetch_text(file: &[u8], at: usize) {
    prefetch(file, at);
    prefetch(file, at + 64);
}
