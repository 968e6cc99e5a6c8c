//! What the tests of slips have in common: the stored logs, and the first line that tells a slip.

/// The lines of a stored log.
macro_rules! stored {
    ($name:literal) => {
        include_str!(concat!("../../tests/logs/", $name, ".txt"))
    };
}
pub(crate) use stored;

/// The first line in which what was written with a slip differs: the right line, and the line with the slip.
pub(crate) fn first_difference(right: &str, slipped: &str) -> [String; 2] {
    let mut pairs = right.lines().zip(slipped.lines());
    let (right, slipped) = pairs.find(|(right, slipped)| right != slipped).expect("the slip shows");
    [right.to_string(), slipped.to_string()]
}
