//! Traces in words, one record after the other with `;` between them.
//!
//! `head Q N`, `row A U P`, `arr T J`, `done T J`, `drop T J`, `run T` are the records; `bytes B ...` stands for bytes as
//! they are, `raw LENGTH KIND N` for a length, a kind and N bytes of 0, `times N` before a record for N of it, and `cut N`
//! takes the last N bytes away.

use crate::schedule::Row;
use crate::trace::{encode, Item, Reader};

/// The bytes of a trace in words, or the words that are not understood.
pub fn trace(words: &str) -> Result<Vec<u8>, String> {
    let mut bytes = Vec::new();
    for part in words.split(';') {
        let wrong = || format!("not understood: {}", part.trim());
        let mut part: Vec<&str> = part.split_whitespace().collect();
        let mut times = 1;
        if let ["times", count, ..] = part.as_slice() {
            times = count.parse().map_err(|_| wrong())?;
            part.drain(..2);
        }
        let (first, rest) = part.split_first().ok_or_else(wrong)?;
        let numbers: Result<Vec<u32>, _> = rest.iter().map(|word| word.parse::<u32>()).collect();
        let numbers = numbers.map_err(|_| wrong())?;
        for _ in 0..times {
            one(first, &numbers, &mut bytes).ok_or_else(wrong)?;
        }
    }
    Ok(bytes)
}

/// Writes one part of a trace in words.
fn one(first: &str, numbers: &[u32], bytes: &mut Vec<u8>) -> Option<()> {
    let small = |number: u32| u16::try_from(number).ok();
    let item = match (first, numbers) {
        ("head", [parts, count]) => Item::Head {
            parts: small(*parts)?,
            count: small(*count)?,
        },
        ("row", [application, share, period]) => Item::Row(Row {
            application: small(*application)?,
            share: small(*share)?,
            period: *period,
        }),
        ("arr", [tick, thread]) => Item::Arrival {
            tick: *tick,
            thread: small(*thread)?,
        },
        ("done", [tick, thread]) => Item::Completion {
            tick: *tick,
            thread: small(*thread)?,
        },
        ("drop", [tick, thread]) => Item::Drop {
            tick: *tick,
            thread: small(*thread)?,
        },
        ("run", [tick]) => Item::RunTo { tick: *tick },
        ("bytes", numbers) => {
            for number in numbers {
                bytes.push(u8::try_from(*number).ok()?);
            }
            return Some(());
        }
        ("raw", [length, kind, body]) => {
            bytes.extend_from_slice(&small(*length)?.to_le_bytes());
            bytes.extend_from_slice(&small(*kind)?.to_le_bytes());
            bytes.resize(bytes.len() + *body as usize, 0);
            return Some(());
        }
        ("cut", [count]) => {
            bytes.truncate(bytes.len().checked_sub(*count as usize)?);
            return Some(());
        }
        _ => return None,
    };
    encode(item, bytes);
    Some(())
}

/// A trace in words, one record to a line; what cannot be read is shown as bytes.
pub fn shown(trace: &[u8]) -> String {
    let mut reader = Reader::new(trace);
    let mut lines = Vec::new();
    loop {
        match reader.read() {
            Ok(Some(item)) => lines.push(record(item)),
            Ok(None) => break,
            Err(_) => {
                let rest: Vec<String> = trace[reader.start()..]
                    .iter()
                    .map(|byte| byte.to_string())
                    .collect();
                if !rest.is_empty() {
                    lines.push(format!("bytes {}", rest.join(" ")));
                }
                break;
            }
        }
    }
    lines.join(";\n") + "\n"
}

/// A trace in words, each record on a line with the byte at which it starts, up to one that is no record in its place.
pub fn placed(trace: &[u8]) -> String {
    let mut reader = Reader::new(trace);
    let mut text = String::new();
    loop {
        match reader.read() {
            Ok(Some(item)) => text += &format!("{} {}\n", reader.start(), record(item)),
            Ok(None) => return text,
            Err(refusal) => {
                let left = trace.len() - reader.start();
                return text + &format!("{} refused {}, {} bytes left\n", reader.start(), refusal.0, left);
            }
        }
    }
}

/// One record in words.
fn record(item: Item) -> String {
    match item {
        Item::Head { parts, count } => format!("head {} {}", parts, count),
        Item::Row(row) => format!("row {} {} {}", row.application, row.share, row.period),
        Item::Arrival { tick, thread } => format!("arr {} {}", tick, thread),
        Item::Completion { tick, thread } => format!("done {} {}", tick, thread),
        Item::Drop { tick, thread } => format!("drop {} {}", tick, thread),
        Item::RunTo { tick } => format!("run {}", tick),
    }
}
