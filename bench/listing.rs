// The programs in plain Rust, for comparison of speed alone: a trace on standard input, its listing, or with the
// word `report` its capacity report, on standard output. The state is changed in place, input and output are buffered, digits are made by hand.
#[allow(dead_code)]
mod plain;

use plain::{State, Watch};
use std::fs::File;
use std::io::{self, Read, Write};
use std::os::fd::FromRawFd;

// No record is longer than half of this, no line than 128 bytes.
const WINDOW: usize = 131_072;
const ROOM: usize = 65_536;
const LINE: usize = 128;
const CLOCK_END: u32 = 2_147_483_647;

// The input, of which buffer[start..end] is at hand; `base` is the place of buffer[0] in the input.
struct Input {
    from: File,
    buffer: Vec<u8>,
    start: usize,
    end: usize,
    base: u64,
    ended: bool,
}

// What is at the front of the input.
enum Front {
    End,
    Cut,
    Record(u16, usize),
}

// A record of a known kind, as long as it is, and what follows it.
type Bytes = [u8; 12];

fn two(b: &Bytes, at: usize) -> u16 {
    u16::from_le_bytes([b[at], b[at + 1]])
}

fn four(b: &Bytes, at: usize) -> u32 {
    u32::from_le_bytes([b[at], b[at + 1], b[at + 2], b[at + 3]])
}

impl Input {
    // Reads more; what is at hand moves to the front of the buffer.
    #[cold]
    fn more(&mut self) -> io::Result<()> {
        self.buffer.copy_within(self.start..self.end, 0);
        self.end -= self.start;
        self.base += self.start as u64;
        self.start = 0;
        let n = self.from.read(&mut self.buffer[self.end..])?;
        self.end += n;
        self.ended = n == 0;
        Ok(())
    }

    #[cold]
    fn front(&mut self) -> io::Result<Front> {
        loop {
            let rest = &self.buffer[self.start..self.end];
            if rest.len() >= 2 {
                let length = u16::from_le_bytes([rest[0], rest[1]]);
                if length < 2 {
                    return Ok(Front::Cut);
                }
                let whole = 2 + length as usize;
                if rest.len() >= whole {
                    return Ok(Front::Record(u16::from_le_bytes([rest[2], rest[3]]), whole));
                }
            }
            if self.ended {
                return Ok(if rest.is_empty() { Front::End } else { Front::Cut });
            }
            self.more()?;
        }
    }

    fn pass(&mut self, kind: u16) {
        self.start += WHOLE[kind as usize];
    }
}

struct Output {
    to: File,
    buffer: Vec<u8>,
    used: usize,
}

const PAIRS: [u8; 200] = pairs();

// The two digits of 0 to 99.
const fn pairs() -> [u8; 200] {
    let mut digits = [0; 200];
    let mut i = 0;
    while i < 100 {
        digits[2 * i] = b'0' + (i / 10) as u8;
        digits[2 * i + 1] = b'0' + (i % 10) as u8;
        i += 1;
    }
    digits
}

impl Output {
    fn flush(&mut self) -> io::Result<()> {
        self.to.write_all(&self.buffer[..self.used])?;
        self.used = 0;
        Ok(())
    }

    // Makes room for a line.
    fn room(&mut self) -> io::Result<()> {
        if self.buffer.len() - self.used < LINE {
            self.flush()?;
        }
        Ok(())
    }

    fn text(&mut self, s: &[u8]) {
        self.buffer[self.used..self.used + s.len()].copy_from_slice(s);
        self.used += s.len();
    }

    fn number(&mut self, n: u64) {
        let mut digits = [0u8; 20];
        let mut at = 20;
        let mut n = n;
        while n >= 100 {
            let pair = 2 * (n % 100) as usize;
            n /= 100;
            at -= 2;
            digits[at..at + 2].copy_from_slice(&PAIRS[pair..pair + 2]);
        }
        if n >= 10 {
            at -= 2;
            digits[at..at + 2].copy_from_slice(&PAIRS[2 * n as usize..2 * n as usize + 2]);
        } else {
            at -= 1;
            digits[at] = b'0' + n as u8;
        }
        self.text(&digits[at..]);
    }

    fn signed(&mut self, n: i64) {
        if n < 0 {
            self.text(b"-");
        }
        self.number(n.unsigned_abs());
    }
}

// Why the listing stops: a refusal, or a failure of input or output.
enum Stop {
    Refused(u8),
    Failed(io::Error),
}

impl From<io::Error> for Stop {
    fn from(e: io::Error) -> Stop {
        Stop::Failed(e)
    }
}

// The bytes of a record of each kind.
const WHOLE: [usize; 7] = [0, 8, 12, 10, 10, 8, 10];

// The kind and the bytes of the next record, `None` at the end; refused 14 and 15.
#[inline(always)]
fn record(input: &mut Input) -> Result<Option<(u16, Bytes)>, Stop> {
    if let Some(b) = input.buffer[input.start..input.end].first_chunk() {
        let (length, kind) = (two(b, 0), two(b, 2));
        if kind < 7 && 2 + length as usize == WHOLE[kind as usize] {
            return Ok(Some((kind, *b)));
        }
    }
    other_record(input)
}

// The same where the record is not a good one, or not at hand, or the last.
#[cold]
fn other_record(input: &mut Input) -> Result<Option<(u16, Bytes)>, Stop> {
    match input.front()? {
        Front::End => Ok(None),
        Front::Cut => Err(Stop::Refused(14)),
        Front::Record(kind, whole) => {
            if kind == 0 || kind > 6 {
                Err(Stop::Refused(15))
            } else if whole == WHOLE[kind as usize] {
                let mut b = [0; 12];
                b[..whole].copy_from_slice(&input.buffer[input.start..input.start + whole]);
                Ok(Some((kind, b)))
            } else {
                Err(Stop::Refused(14))
            }
        }
    }
}

// The next record where it is of the kind that must stand here.
fn must_be(wanted: u16, input: &mut Input) -> Result<Bytes, Stop> {
    match record(input)? {
        None => Err(Stop::Refused(14)),
        Some((kind, b)) if kind == wanted => Ok(b),
        Some(_) => Err(Stop::Refused(16)),
    }
}

fn table(input: &mut Input) -> Result<State, Stop> {
    let b = must_be(1, input)?;
    let (q, n) = (two(&b, 4), two(&b, 6));
    if q == 0 || q > 4_096 {
        return Err(Stop::Refused(1));
    }
    if n == 0 || n > 64 {
        return Err(Stop::Refused(2));
    }
    input.pass(1);
    let mut rows = Vec::new();
    let mut shares = 0;
    while rows.len() < n as usize {
        let b = must_be(2, input)?;
        let (app, share, written) = (two(&b, 4), two(&b, 6), four(&b, 8));
        let period = if written == 0 { 100 } else { written };
        shares += share as u32;
        let number = if app > 15 {
            3
        } else if share == 0 || share > q {
            4
        } else if period > 65_536 {
            5
        } else if (share as u64) * (period as u64) < q as u64 {
            6
        } else if shares > q as u32 {
            7
        } else {
            0
        };
        if number > 0 {
            return Err(Stop::Refused(number));
        }
        rows.push((app, share, period));
        input.pass(2);
    }
    Ok(State::begin(q, &rows))
}

// What is written of ticks and events.
trait Tell: Watch {
    fn begin(&mut self, s: &State);
    fn tick(&mut self, s: &mut State, out: &mut Output) -> io::Result<()>;
    fn event(&mut self, out: &mut Output) -> io::Result<()>;
    fn end(&mut self, s: &State, out: &mut Output) -> io::Result<()>;
}

// The lines of the ticks.
struct Lines;

impl Watch for Lines {}

impl Tell for Lines {
    fn begin(&mut self, _: &State) {}

    fn tick(&mut self, s: &mut State, out: &mut Output) -> io::Result<()> {
        out.room()?;
        out.number(s.clock() as u64);
        let had = s.step();
        if had == 65_535 {
            out.text(b" - - - -\n");
            return Ok(());
        }
        let (app, e, w) = s.shown(had as usize);
        out.text(b" ");
        out.number(had as u64);
        out.text(b" ");
        out.number(app as u64);
        out.text(b" ");
        out.signed(e);
        out.text(b" ");
        out.signed(w);
        out.text(b"\n");
        Ok(())
    }

    fn event(&mut self, _: &mut Output) -> io::Result<()> {
        Ok(())
    }

    fn end(&mut self, _: &State, _: &mut Output) -> io::Result<()> {
        Ok(())
    }
}

// A stretch that holds while some thread is active.
#[derive(Clone, Copy, Default)]
struct Stretch {
    active: u32,
    since: u32,
    granted: u32,
    lost: i64,
}

// The stretches of the applications, and those that have ended and are not yet written.
struct Report {
    q: i64,
    shares: [i64; 16],
    open: [Stretch; 16],
    ended: Vec<(usize, u32, Stretch, &'static [u8])>,
}

impl Watch for Report {
    fn awake(&mut self, app: usize, now: u32) {
        let o = &mut self.open[app];
        if o.active == 0 {
            *o = Stretch { since: now, ..Stretch::default() };
        }
        o.active += 1;
    }

    fn asleep(&mut self, app: usize, now: u32, lost: i64) {
        let o = &mut self.open[app];
        o.active -= 1;
        o.lost += lost;
        if o.active == 0 {
            self.ended.push((app, now, *o, b"over\n"));
        }
    }

    fn granted(&mut self, app: usize) {
        self.open[app].granted += 1;
    }

    fn idle(&mut self, now: u32) {
        self.close(now, b"idle\n");
    }
}

impl Report {
    fn close(&mut self, now: u32, how: &'static [u8]) {
        for app in 0..16 {
            if self.open[app].active > 0 {
                self.ended.push((app, now, self.open[app], how));
                self.open[app].active = 0;
            }
        }
    }

    #[cold]
    fn write(&mut self, out: &mut Output) -> io::Result<()> {
        for (app, now, o, how) in self.ended.drain(..) {
            out.room()?;
            let share = self.shares[app] * (now - o.since) as i64;
            let sum = self.q * o.granted as i64 - share + o.lost;
            for n in [app as i64, o.since as i64, now as i64, o.granted as i64, o.lost, share, sum] {
                out.signed(n);
                out.text(b" ");
            }
            out.text(how);
        }
        Ok(())
    }
}

impl Tell for Report {
    fn begin(&mut self, s: &State) {
        self.q = s.q() as i64;
        for i in 0..s.count() {
            let (share, app) = s.row(i);
            self.shares[app] += share as i64;
        }
    }

    fn tick(&mut self, s: &mut State, out: &mut Output) -> io::Result<()> {
        s.step_watched(self);
        self.event(out)
    }

    fn event(&mut self, out: &mut Output) -> io::Result<()> {
        if self.ended.is_empty() {
            return Ok(());
        }
        self.write(out)
    }

    fn end(&mut self, s: &State, out: &mut Output) -> io::Result<()> {
        self.close(s.clock(), b"open\n");
        self.write(out)
    }
}

// The clock at the end of the input.
fn play<T: Tell>(input: &mut Input, tell: &mut T, out: &mut Output) -> Result<u32, Stop> {
    let mut s = table(input)?;
    tell.begin(&s);
    while let Some((kind, b)) = record(input)? {
        if kind < 3 {
            return Err(Stop::Refused(16));
        }
        let tick = four(&b, 4);
        if tick > CLOCK_END {
            return Err(Stop::Refused(13));
        }
        if tick < s.clock() {
            return Err(Stop::Refused(12));
        }
        let i = two(&b, 8) as usize;
        if kind != 5 && i >= s.count() {
            return Err(Stop::Refused(8));
        }
        while s.clock() < tick {
            tell.tick(&mut s, out)?;
        }
        let number = match kind {
            3 => s.arrive(i, tell),
            4 => s.complete(i, tell),
            5 => 0,
            _ => s.drop_waiting(i),
        };
        if number > 0 {
            return Err(Stop::Refused(number));
        }
        tell.event(out)?;
        input.pass(kind);
    }
    tell.end(&s, out)?;
    Ok(s.clock())
}

fn main() -> io::Result<()> {
    // 0 and 1 are standard input and output, which nothing else here uses.
    let (from, to) = unsafe { (File::from_raw_fd(0), File::from_raw_fd(1)) };
    let mut input = Input { from, buffer: vec![0; WINDOW], start: 0, end: 0, base: 0, ended: false };
    let mut out = Output { to, buffer: vec![0; ROOM], used: 0 };
    let played = if std::env::args().nth(1).as_deref() == Some("report") {
        out.text(b"app from to granted lost share sum end\n");
        let mut report = Report { q: 0, shares: [0; 16], open: [Stretch::default(); 16], ended: Vec::new() };
        play(&mut input, &mut report, &mut out)
    } else {
        out.text(b"tick thread app deadline virtual\n");
        play(&mut input, &mut Lines, &mut out)
    };
    out.room()?;
    match played {
        Ok(clock) => {
            out.text(b"end ");
            out.number(clock as u64);
        }
        Err(Stop::Refused(number)) => {
            out.text(b"refused ");
            out.number(number as u64);
            out.text(b" at ");
            out.number(input.base + input.start as u64);
        }
        Err(Stop::Failed(e)) => return Err(e),
    }
    out.text(b"\n");
    out.flush()
}
