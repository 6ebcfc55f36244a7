//! Makes a failing case small, so that a reader sees what matters in it.

#[cfg(any(test, feature = "probe"))]
mod plain;

#[cfg(feature = "probe")]
pub use plain::{list, words};

/// Leave out as many items after the first `fixed` as can be spared.
pub fn shorter<T: Clone>(mut case: Vec<T>, fixed: usize, fails: &dyn Fn(&[T]) -> bool) -> Vec<T> {
    let mut size = (case.len() - fixed).div_ceil(2);
    while size > 0 {
        let mut at = fixed;
        while at < case.len() {
            let end = (at + size).min(case.len());
            let shorter = [&case[..at], &case[end..]].concat();
            if fails(&shorter) {
                case = shorter;
            } else {
                at = end;
            }
        }
        size = if size == 1 { 0 } else { size.div_ceil(2) };
    }
    case
}
