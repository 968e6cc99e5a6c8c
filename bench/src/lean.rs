//! The second program's lines written by hand, with no formatter and no text for each line: what its listing costs at
//! the least.

use second::engine::Sent;
use second::listing::Line;
use second::log::Stop;
use second::numbers::Bytes;

pub fn text(lines: &[Line]) -> Vec<u8> {
    let mut out = Vec::with_capacity(lines.len() * 32);
    for line in lines {
        match *line {
            Line::Open { block, code } => put(&mut out, b"open", &[block.into(), code.into()]),
            Line::Close { block, code } => put(&mut out, b"close", &[block.into(), code.into()]),
            Line::Name { old, new, code } => put(&mut out, b"name", &[old.into(), new.into(), code.into()]),
            Line::In { record, code } => put(&mut out, b"in", &[record.into(), code.into()]),
            Line::Out(Sent { block, record, length, clock }) => {
                put(&mut out, b"out", &[block.into(), record.into(), length.into(), clock])
            }
            Line::NothingOut { code } => put(&mut out, b"out -", &[code.into()]),
            Line::End { clock, sent: Bytes(sent), waiting } => put(&mut out, b"end", &[clock, sent, waiting as u64]),
            Line::Stopped(Stop::Broken { offset }) => put(&mut out, b"broken", &[offset]),
            Line::Stopped(Stop::Long) => put(&mut out, b"long", &[]),
        }
    }
    out
}

fn put(out: &mut Vec<u8>, word: &[u8], numbers: &[u64]) {
    out.extend_from_slice(word);
    for &number in numbers {
        out.push(b' ');
        put_number(out, number);
    }
    out.push(b'\n');
}

fn put_number(out: &mut Vec<u8>, number: u64) {
    let mut digits = [0; 20];
    let mut first = digits.len();
    let mut rest = number;
    loop {
        first -= 1;
        digits[first] = b'0' + (rest % 10) as u8;
        rest /= 10;
        if rest == 0 {
            break;
        }
    }
    out.extend_from_slice(&digits[first..]);
}
