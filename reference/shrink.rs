//! Makes what goes wrong short enough to read.

/// Leaves out as much as it can, in ever smaller pieces, while it still goes wrong.
pub fn shrink<T: Clone>(mut parts: Vec<T>, goes_wrong: impl Fn(&[T]) -> bool) -> Vec<T> {
    let mut piece = parts.len().div_ceil(2);
    while piece > 0 {
        let mut start = 0;
        while start < parts.len() {
            let end = (start + piece).min(parts.len());
            let without = [&parts[..start], &parts[end..]].concat();
            if goes_wrong(&without) {
                parts = without;
            } else {
                start = end;
            }
        }
        piece /= 2;
    }
    parts
}
