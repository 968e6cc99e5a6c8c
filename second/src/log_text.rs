//! A log as readable lines, one field a line, and back.
//!
//! What the reader would call broken is one `raw` line for the rest of the bytes, so every row of bytes comes back as
//! it was.

use crate::log::{Field, Reader, FIRST_PASSED_OVER};
use crate::words::{number, word_lines};

/// The bytes of a log as lines.
pub fn text(log: &[u8]) -> String {
    let Ok((largest, mut reader)) = Reader::new(log, 0).begin() else {
        return raw_line(log);
    };
    let mut lines = field_line(&Field::Largest { largest: largest as u16 });
    while let Some(Ok(field)) = reader.next() {
        lines.push_str(&field_line(&field));
    }
    lines.push_str(&raw_line(&log[reader.read()..]));
    lines
}

fn field_line(field: &Field) -> String {
    match field {
        Field::Largest { largest } => format!("largest {largest}\n"),
        Field::Open { block, share } => format!("open {block} {share}\n"),
        Field::Close { block } => format!("close {block}\n"),
        Field::Rename { old, new } => format!("rename {old} {new}\n"),
        Field::Record { block, number, length } => format!("record {block} {number} {length}\n"),
        Field::Serve => "serve\n".to_string(),
        Field::Other { tag, value: [] } => format!("other {tag}\n"),
        Field::Other { tag, value } if value.iter().all(|&byte| byte == 0) => {
            format!("other {tag} zeros {}\n", value.len())
        }
        Field::Other { tag, value } => format!("other {tag} {}\n", hex(value)),
    }
}

fn raw_line(bytes: &[u8]) -> String {
    if bytes.is_empty() {
        String::new()
    } else {
        format!("raw {}\n", hex(bytes))
    }
}

fn hex(bytes: &[u8]) -> String {
    bytes.iter().map(|byte| format!("{byte:02x}")).collect()
}

/// The lines as the bytes of a log. The lines may say anything, in any order; a line that says nothing known is told by
/// its number.
pub fn bytes(text: &str) -> Result<Vec<u8>, String> {
    let mut log = Vec::new();
    for line in word_lines(text) {
        write_line(&mut log, &line.words).map_err(|message| format!("line {}: {message}", line.number))?;
    }
    Ok(log)
}

/// Adds the field that a line says to a log.
pub fn write_line(log: &mut Vec<u8>, words: &[&str]) -> Result<(), String> {
    match *words {
        ["largest", largest] => Field::Largest { largest: short(largest)? }.write(log),
        ["open", block, share] => Field::Open { block: long(block)?, share: long(share)? }.write(log),
        ["close", block] => Field::Close { block: long(block)? }.write(log),
        ["rename", old, new] => Field::Rename { old: long(old)?, new: long(new)? }.write(log),
        ["record", block, number, length] => {
            Field::Record { block: long(block)?, number: long(number)?, length: short(length)? }.write(log)
        }
        ["serve"] => Field::Serve.write(log),
        ["other", tag] => Field::Other { tag: passed_over_tag(tag)?, value: &[] }.write(log),
        ["other", tag, value] => {
            Field::Other { tag: passed_over_tag(tag)?, value: &passed_over_value(value)? }.write(log)
        }
        ["other", tag, "zeros", count] => {
            Field::Other { tag: passed_over_tag(tag)?, value: &vec![0; short(count)?.into()] }.write(log)
        }
        ["raw", bytes] => log.extend(bytes_of_hex(bytes)?),
        _ => return Err(format!("{} is not a line of a log", words.join(" "))),
    }
    Ok(())
}

fn short(word: &str) -> Result<u16, String> {
    number(word, u64::from(u16::MAX)).map(|value| value as u16)
}

fn long(word: &str) -> Result<u32, String> {
    number(word, u64::from(u32::MAX)).map(|value| value as u32)
}

fn passed_over_tag(word: &str) -> Result<u8, String> {
    let tag = number(word, u64::from(u8::MAX))? as u8;
    if tag < FIRST_PASSED_OVER {
        return Err(format!("tag {tag} is not passed over"));
    }
    Ok(tag)
}

fn passed_over_value(word: &str) -> Result<Vec<u8>, String> {
    let value = bytes_of_hex(word)?;
    if value.len() > usize::from(u16::MAX) {
        return Err(format!("a value of {} bytes is too long", value.len()));
    }
    Ok(value)
}

fn bytes_of_hex(word: &str) -> Result<Vec<u8>, String> {
    let digits: Option<Vec<u32>> = word.chars().map(|digit| digit.to_digit(16)).collect();
    match digits {
        Some(digits) if digits.len() % 2 == 0 => {
            Ok(digits.chunks(2).map(|pair| (16 * pair[0] + pair[1]) as u8).collect())
        }
        _ => Err("the bytes are not pairs of hex digits".to_string()),
    }
}
