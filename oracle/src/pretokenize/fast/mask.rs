//! The names that the mask half of document 000 needs in order to compile. None of them is ever called.
#![allow(dead_code)]

#[derive(Clone, Copy, Default)]
pub(crate) struct AsciiMasks {
    pub l: u64,
    pub d: u64,
    pub s: u64,
    pub wt: u64,
    pub n: u64,
    pub hi: u64,
    pub ap: u64,
}

pub(crate) fn digit_run_splits3(_digits: u64) -> u64 {
    unreachable!("the mask half is not called")
}

pub(crate) fn digit_run_splits3_right(_digits: u64) -> u64 {
    unreachable!("the mask half is not called")
}

pub(crate) unsafe fn nn_at_full(_bytes: &[u8], _index: usize) -> bool {
    unreachable!("the mask half is not called")
}

#[cfg(target_arch = "aarch64")]
pub(crate) unsafe fn movemask64<T>(_a: T, _b: T, _c: T, _d: T) -> u64 {
    unreachable!("the mask half is not called")
}

#[cfg(target_arch = "x86_64")]
pub(crate) unsafe fn ascii_masks_avx512(_bytes: &[u8], _scan: usize) -> AsciiMasks {
    unreachable!("the mask half is not called")
}

#[cfg(target_arch = "x86_64")]
pub(crate) unsafe fn ascii_masks_avx2(_bytes: &[u8], _scan: usize) -> AsciiMasks {
    unreachable!("the mask half is not called")
}
