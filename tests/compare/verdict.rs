//! What a check says: that all is the same, or the first difference in words.

use std::fmt::Debug;

pub type Verdict = Result<(), String>;

pub fn same<T: PartialEq + Debug>(what: &str, got: T, expected: T) -> Verdict {
    if got == expected {
        Ok(())
    } else {
        Err(format!("{what}: {got:?} and not {expected:?}"))
    }
}

/// The first entry that differs, and how many do.
pub fn same_entries<T: PartialEq + Debug>(what: &str, got: &[T], expected: &[T]) -> Verdict {
    same(&format!("{what} length"), got.len(), expected.len())?;
    let different: Vec<usize> = (0..got.len()).filter(|&i| got[i] != expected[i]).collect();
    match different.first() {
        None => Ok(()),
        Some(&i) => Err(format!("{what} {i} ({} differ): {:?} and not {:?}", different.len(), got[i], expected[i])),
    }
}
