//! The detector.

extern "C" {
    fn probe_peak_abs(store: *mut f64, len: usize, x: f64) -> f64;
    fn probe_peak_phase(store: *mut f64, len: usize, x: u64) -> u64;
    fn probe_peaks_abs(store: *mut f64, len: usize, run: *mut f64, run_len: usize);
}

/// One push into a lent detector store.
pub fn peak_abs(store: &mut [f64], x: f64) -> f64 {
    // SAFETY: pointer and length are those of one live slice.
    unsafe { probe_peak_abs(store.as_mut_ptr(), store.len(), x) }
}

/// One push; its phase, 4 where there is none.
pub fn peak_phase(store: &mut [f64], x: f64) -> u64 {
    // SAFETY: pointer and length are those of one live slice.
    unsafe { probe_peak_phase(store.as_mut_ptr(), store.len(), x.to_bits()) }
}

/// A run of pushes; each sample gives way to its answer.
pub fn peaks_abs(store: &mut [f64], run: &mut [f64]) {
    // SAFETY: pointers and lengths are those of two live slices apart.
    unsafe { probe_peaks_abs(store.as_mut_ptr(), store.len(), run.as_mut_ptr(), run.len()) }
}
