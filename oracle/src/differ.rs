//! Says where two answers differ.

use std::fmt::Debug;
use std::process::exit;

/// Ends the program with status 1 unless the two answers are the same.
pub fn same<T: PartialEq + Debug>(what: &str, input: &dyn Debug, ours: T, theirs: T) {
    if ours != theirs {
        println!("{what} differs on {input:02X?}: the library has {ours:?}, Rust has {theirs:?}");
        exit(1);
    }
}

/// An error unless the library's answer is the expected one.
pub fn agree<T: PartialEq + Debug>(what: &str, ours: T, expected: T) -> Result<(), String> {
    if ours == expected {
        return Ok(());
    }
    Err(format!(
        "{what}: the library has {ours:?}, owed is {expected:?}"
    ))
}

#[cfg(test)]
mod tests {
    use super::*;

    #[test]
    fn answers_agree_or_both_are_shown() {
        assert_eq!(agree("total", 3, 3), Ok(()));
        let message = agree("total", 3, 4).unwrap_err();
        assert_eq!(message, "total: the library has 3, owed is 4");
    }
}
