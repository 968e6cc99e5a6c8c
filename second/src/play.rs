//! A log in, its listing out.

use crate::codes::code_of;
use crate::engine::{Engine, Record};
use crate::listing::Line;
use crate::log::{Field, Reader};
use crate::numbers::{charged_bytes, Bytes};

pub fn play(log: &[u8]) -> Vec<Line> {
    play_at(log, 0)
}

/// The listing of a log whose first byte has this offset.
pub fn play_at(log: &[u8], first: u64) -> Vec<Line> {
    match Reader::new(log, first).begin() {
        Ok((largest, reader)) => play_fields(Engine::fresh(largest), reader),
        Err(stop) => vec![Line::Stopped(stop)],
    }
}

/// Plays the fields after L on a board without blocks.
pub fn play_fields(mut engine: Engine, reader: Reader) -> Vec<Line> {
    let mut lines = Vec::new();
    let mut sent_bytes = Bytes(0);
    for field in reader {
        match field {
            Ok(field) => lines.extend(play_field(&mut engine, &mut sent_bytes, field)),
            Err(stop) => {
                lines.push(Line::Stopped(stop));
                return lines;
            }
        }
    }
    lines.push(Line::End { clock: engine.clock, sent: sent_bytes, waiting: engine.waiting_records() });
    lines
}

/// One field gives one line, or none if it is passed over.
fn play_field(engine: &mut Engine, sent_bytes: &mut Bytes, field: Field) -> Option<Line> {
    let line = match field {
        Field::Open { block, share } => Line::Open { block, code: code_of(&engine.open(block, share)) },
        Field::Close { block } => Line::Close { block, code: code_of(&engine.close(block)) },
        Field::Rename { old, new } => Line::Name { old, new, code: code_of(&engine.rename(old, new)) },
        Field::Record { block, number, length } => {
            Line::In { record: number, code: code_of(&engine.record(block, Record { number, length })) }
        }
        Field::Serve => match engine.serve() {
            Ok(sent) => {
                *sent_bytes = *sent_bytes + charged_bytes(sent.length);
                Line::Out(sent)
            }
            Err(refusal) => Line::NothingOut { code: refusal.code() },
        },
        // The reader gives no second L.
        Field::Largest { .. } | Field::Other { .. } => return None,
    };
    Some(line)
}
