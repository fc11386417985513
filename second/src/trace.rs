//! The records of a trace: their form, their places and refusals 14 to 16.

use crate::cover::{hit, Branch};
use crate::schedule::{Refusal, Row};

/// The six kinds of records.
#[derive(Clone, Copy, PartialEq, Eq, Debug)]
pub enum Kind {
    Head,
    Row,
    Arrival,
    Completion,
    RunTo,
    Drop,
}

impl Kind {
    /// The kind of a number, if there is one.
    pub fn of(number: u16) -> Option<Kind> {
        match number {
            1 => Some(Kind::Head),
            2 => Some(Kind::Row),
            3 => Some(Kind::Arrival),
            4 => Some(Kind::Completion),
            5 => Some(Kind::RunTo),
            6 => Some(Kind::Drop),
            _ => None,
        }
    }

    /// The number of the kind.
    pub fn number(self) -> u16 {
        match self {
            Kind::Head => 1,
            Kind::Row => 2,
            Kind::Arrival => 3,
            Kind::Completion => 4,
            Kind::RunTo => 5,
            Kind::Drop => 6,
        }
    }

    /// The length that a record of the kind states.
    pub fn length(self) -> u16 {
        match self {
            Kind::Head | Kind::RunTo => 6,
            Kind::Row => 10,
            Kind::Arrival | Kind::Completion | Kind::Drop => 8,
        }
    }
}

/// A record's contents.
#[derive(Clone, Copy, PartialEq, Eq, Debug)]
pub enum Item {
    Head { parts: u16, count: u16 },
    Row(Row),
    Arrival { tick: u32, thread: u16 },
    Completion { tick: u32, thread: u16 },
    Drop { tick: u32, thread: u16 },
    RunTo { tick: u32 },
}

/// What may come next.
#[derive(Clone, Copy, PartialEq, Eq, Debug)]
enum Place {
    Head,
    Rows(u16),
    Events,
}

/// A reader over a trace that keeps the place and the start of the present record.
pub struct Reader<'a> {
    input: &'a [u8],
    start: usize,
    next: usize,
    place: Place,
}

/// Two bytes, little-endian.
fn two(bytes: &[u8]) -> u16 {
    u16::from(bytes[0]) + 256 * u16::from(bytes[1])
}

/// Four bytes, little-endian.
fn four(bytes: &[u8]) -> u32 {
    u32::from(two(bytes)) + 65_536 * u32::from(two(&bytes[2..]))
}

impl<'a> Reader<'a> {
    /// A reader at the first byte.
    pub fn new(input: &'a [u8]) -> Reader<'a> {
        Reader {
            input,
            start: 0,
            next: 0,
            place: Place::Head,
        }
    }

    /// The byte at which the present record starts, or the input's length past the last one.
    pub fn start(&self) -> usize {
        self.start
    }

    /// The next record, none at a proper end, or refusal 14, 15 or 16.
    pub fn read(&mut self) -> Result<Option<Item>, Refusal> {
        self.start = self.next;
        let rest = &self.input[self.start..];
        if rest.is_empty() {
            if self.place == Place::Events {
                return Ok(None);
            }
            hit(Branch::RowsMissing);
            return Err(Refusal(14));
        }
        if rest.len() < 2 {
            hit(Branch::Cut);
            return Err(Refusal(14));
        }
        let length = two(rest);
        if length < 2 {
            hit(Branch::Short);
            return Err(Refusal(14));
        }
        let whole = 2 + usize::from(length);
        if rest.len() < whole {
            hit(Branch::Cut);
            return Err(Refusal(14));
        }
        let kind = match Kind::of(two(&rest[2..])) {
            Some(kind) => kind,
            None => return Err(Refusal(15)),
        };
        if length != kind.length() {
            hit(Branch::WrongLength);
            return Err(Refusal(14));
        }
        let fits = match self.place {
            Place::Head => kind == Kind::Head,
            Place::Rows(_) => kind == Kind::Row,
            Place::Events => kind != Kind::Head && kind != Kind::Row,
        };
        if !fits {
            return Err(Refusal(16));
        }
        self.next = self.start + whole;
        let item = decode(kind, &rest[4..whole]);
        self.place = match (self.place, item) {
            (_, Item::Head { count, .. }) => Place::after(count),
            (Place::Rows(left), _) => Place::after(left - 1),
            (place, _) => place,
        };
        Ok(Some(item))
    }
}

impl Place {
    /// The place when this many rows are still to come.
    fn after(left: u16) -> Place {
        if left == 0 {
            Place::Events
        } else {
            Place::Rows(left)
        }
    }
}

/// The contents of a body that has the length of its kind.
fn decode(kind: Kind, body: &[u8]) -> Item {
    match kind {
        Kind::Head => Item::Head {
            parts: two(body),
            count: two(&body[2..]),
        },
        Kind::Row => Item::Row(Row {
            application: two(body),
            share: two(&body[2..]),
            period: four(&body[4..]),
        }),
        Kind::Arrival => Item::Arrival {
            tick: four(body),
            thread: two(&body[4..]),
        },
        Kind::Completion => Item::Completion {
            tick: four(body),
            thread: two(&body[4..]),
        },
        Kind::Drop => Item::Drop {
            tick: four(body),
            thread: two(&body[4..]),
        },
        Kind::RunTo => Item::RunTo { tick: four(body) },
    }
}

/// Writes a record after the bytes already there.
pub fn encode(item: Item, bytes: &mut Vec<u8>) {
    let kind = match item {
        Item::Head { .. } => Kind::Head,
        Item::Row(_) => Kind::Row,
        Item::Arrival { .. } => Kind::Arrival,
        Item::Completion { .. } => Kind::Completion,
        Item::Drop { .. } => Kind::Drop,
        Item::RunTo { .. } => Kind::RunTo,
    };
    bytes.extend_from_slice(&kind.length().to_le_bytes());
    bytes.extend_from_slice(&kind.number().to_le_bytes());
    match item {
        Item::Head { parts, count } => {
            bytes.extend_from_slice(&parts.to_le_bytes());
            bytes.extend_from_slice(&count.to_le_bytes());
        }
        Item::Row(row) => {
            bytes.extend_from_slice(&row.application.to_le_bytes());
            bytes.extend_from_slice(&row.share.to_le_bytes());
            bytes.extend_from_slice(&row.period.to_le_bytes());
        }
        Item::Arrival { tick, thread } | Item::Completion { tick, thread } | Item::Drop { tick, thread } => {
            bytes.extend_from_slice(&tick.to_le_bytes());
            bytes.extend_from_slice(&thread.to_le_bytes());
        }
        Item::RunTo { tick } => bytes.extend_from_slice(&tick.to_le_bytes()),
    }
}
