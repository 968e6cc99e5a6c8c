//! Lines of words, as the case text and the log text have them: `#` starts a comment, empty lines are skipped.

/// A line's number, counted from 1, and its words.
pub struct WordLine<'a> {
    pub number: usize,
    pub words: Vec<&'a str>,
}

pub fn word_lines(text: &str) -> impl Iterator<Item = WordLine<'_>> {
    text.lines().enumerate().filter_map(|(index, line)| {
        let spoken = line.split('#').next().unwrap_or("");
        let words: Vec<&str> = spoken.split_ascii_whitespace().collect();
        (!words.is_empty()).then_some(WordLine { number: index + 1, words })
    })
}

/// A decimal number up to a largest value, in digits alone.
pub fn number(word: &str, largest: u64) -> Result<u64, String> {
    let digits_alone = word.bytes().all(|byte| byte.is_ascii_digit());
    match word.parse::<u64>() {
        Ok(value) if digits_alone && value <= largest => Ok(value),
        _ => Err(format!("{word} is not a number from 0 to {largest}")),
    }
}
