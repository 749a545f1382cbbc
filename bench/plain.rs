//! The extraction as one would write it in Rust without proofs, to compare speeds with.
//!
//! `plain FROM TO` does what `archappl extract` does, with moments in nanoseconds since 1970: it
//! cuts each chunk of standard input to the interval and checks each line in full. A bad line ends
//! it with status 3 and a line that tells its number and fault.
//!
//! It is written for speed: lines are read in place in one large buffer, the newline and an escape are
//! looked for in one pass of 16 bytes at a time, a usual sample is read without a loop over its fields,
//! and lines that stand one after another are written in one piece.

use std::fs::File;
use std::io::{self, Read, Write};
use std::ops::Range;
use std::process::ExitCode;

const MAX_LINE: usize = 16_777_216;

/// What is wrong with a line, by the number behind the E of a complaint.
type Fault = u8;

const BAD_VARINT: Fault = 1;
const BAD_TAG: Fault = 2;
const GROUP: Fault = 3;
const SHORT: Fault = 4;
const BAD_ESCAPE: Fault = 5;
const BAD_TIME: Fault = 6;
const MISSING: Fault = 9;
const WRONG_WIRE: Fault = 10;
const UNKNOWN_TYPE: Fault = 11;
const YEAR_RANGE: Fault = 12;
const NO_HEADER: Fault = 13;
const LINE_TOO_LONG: Fault = 15;
const TORN: Fault = 35;

enum Value<'a> {
    Varint(u64),
    Fixed64,
    Bytes(&'a [u8]),
    Fixed32,
}

/// The fields of a message that are still to be read.
struct Fields<'a>(&'a [u8]);

impl<'a> Fields<'a> {
    fn varint(&mut self) -> Result<u64, Fault> {
        let mut number = 0;
        for i in 0..10 {
            let byte = *self.0.get(i).ok_or(SHORT)?;
            number |= u64::from(byte & 127) << (7 * i);
            if byte < 128 {
                self.0 = &self.0[i + 1..];
                return Ok(number);
            }
        }
        Err(BAD_VARINT)
    }

    fn front(&mut self, count: u64) -> Result<&'a [u8], Fault> {
        if count > self.0.len() as u64 {
            return Err(SHORT);
        }
        let (front, rest) = self.0.split_at(count as usize);
        self.0 = rest;
        Ok(front)
    }

    fn next(&mut self) -> Result<Option<(u64, Value<'a>)>, Fault> {
        if self.0.is_empty() {
            return Ok(None);
        }
        let tag = self.varint()?;
        if tag >> 32 != 0 || tag >> 3 == 0 || tag & 7 > 5 {
            return Err(BAD_TAG);
        }
        let value = match tag & 7 {
            0 => Value::Varint(self.varint()?),
            1 => self.front(8).map(|_| Value::Fixed64)?,
            2 => {
                let count = self.varint()?;
                Value::Bytes(self.front(count)?)
            }
            5 => self.front(4).map(|_| Value::Fixed32)?,
            _ => return Err(GROUP),
        };
        Ok(Some((tag >> 3, value)))
    }
}

fn number(value: Value) -> Result<u64, Fault> {
    match value {
        Value::Varint(number) => Ok(number),
        _ => Err(WRONG_WIRE),
    }
}

fn bytes(value: Value<'_>) -> Result<&[u8], Fault> {
    match value {
        Value::Bytes(bytes) => Ok(bytes),
        _ => Err(WRONG_WIRE),
    }
}

/// Whether a name and value has both.
fn is_whole_pair(message: &[u8]) -> Result<bool, Fault> {
    let (mut name, mut val) = (false, false);
    let mut fields = Fields(message);
    while let Some((field, value)) = fields.next()? {
        match field {
            1 => name = bytes(value).map(|_| true)?,
            2 => val = bytes(value).map(|_| true)?,
            _ => {}
        }
    }
    Ok(name && val)
}

#[derive(Clone, Copy, PartialEq)]
enum Element {
    Bytes,
    Sint,
    Fixed32,
    Fixed64,
}

/// How val is written: its elements, and whether there may be any number of them.
fn layout(payload_type: u32) -> (Element, bool) {
    let element = match payload_type % 7 {
        0 | 4 => Element::Bytes,
        1 | 3 => Element::Sint,
        2 | 5 => Element::Fixed32,
        _ => Element::Fixed64,
    };
    (element, payload_type >= 7 && payload_type != 11)
}

fn check_val(element: Element, repeated: bool, value: Value) -> Result<(), Fault> {
    match (value, element) {
        (Value::Varint(_), Element::Sint)
        | (Value::Fixed64, Element::Fixed64)
        | (Value::Bytes(_), Element::Bytes)
        | (Value::Fixed32, Element::Fixed32) => Ok(()),
        (Value::Bytes(packed), _) if repeated => match element {
            Element::Sint => {
                let mut numbers = Fields(packed);
                while !numbers.0.is_empty() {
                    numbers.varint()?;
                }
                Ok(())
            }
            Element::Fixed32 if packed.len() % 4 != 0 => Err(SHORT),
            Element::Fixed64 if packed.len() % 8 != 0 => Err(SHORT),
            _ => Ok(()),
        },
        _ => Err(WRONG_WIRE),
    }
}

struct Header {
    payload_type: u32,
    start: u64,
    length: u32,
}

fn read_header(message: &[u8]) -> Result<Header, Fault> {
    let (mut payload_type, mut name, mut year, mut whole) = (None, false, None, true);
    let mut fields = Fields(message);
    while let Some((field, value)) = fields.next()? {
        match field {
            1 => payload_type = Some(number(value)? as u32),
            2 => name = bytes(value).map(|_| true)?,
            3 => year = Some(number(value)? as i32),
            4 => drop(number(value)?),
            15 => whole &= is_whole_pair(bytes(value)?)?,
            _ => {}
        }
    }
    let (Some(payload_type), true, Some(year), true) = (payload_type, name, year, whole) else {
        return Err(MISSING);
    };
    if payload_type > 13 {
        return Err(UNKNOWN_TYPE);
    }
    if !(1991..=2499).contains(&year) {
        return Err(YEAR_RANGE);
    }
    let days = |year: u64| 365 * year + (year - 1) / 4 - (year - 1) / 100 + (year - 1) / 400;
    let year = year as u64;
    Ok(Header {
        payload_type,
        start: (days(year) - days(1970)) * 86_400 * 1_000_000_000,
        length: ((days(year + 1) - days(year)) * 86_400) as u32,
    })
}

/// The moment of a sample, which is checked in full.
#[inline(never)]
fn read_sample(header: &Header, message: &[u8]) -> Result<u64, Fault> {
    let (element, repeated) = layout(header.payload_type);
    let (mut secs, mut nano, mut val, mut whole) = (None, None, repeated, true);
    let mut fields = Fields(message);
    while let Some((field, value)) = fields.next()? {
        match field {
            1 => secs = Some(number(value)? as u32),
            2 => nano = Some(number(value)? as u32),
            3 => val = check_val(element, repeated, value).map(|_| true)?,
            4 | 5 | 6 | 8 => drop(number(value)?),
            7 => whole &= is_whole_pair(bytes(value)?)?,
            _ => {}
        }
    }
    let (Some(secs), Some(nano), true, true) = (secs, nano, val, whole) else {
        return Err(MISSING);
    };
    if secs >= header.length || nano >= 1_000_000_000 {
        return Err(BAD_TIME);
    }
    Ok(header.start + u64::from(secs) * 1_000_000_000 + u64::from(nano))
}

/// The message that a line means: the line itself where nothing in it is escaped.
#[inline(never)]
fn unescape<'a>(line: &'a [u8], work: &'a mut Vec<u8>) -> Result<&'a [u8], Fault> {
    let Some(mut at) = line.iter().position(|&byte| byte == 0x1b) else {
        return Ok(line);
    };
    work.clear();
    let mut rest = line;
    loop {
        work.extend_from_slice(&rest[..at]);
        work.push(match rest.get(at + 1) {
            Some(1) => 0x1b,
            Some(2) => 0x0a,
            Some(3) => 0x0d,
            _ => return Err(BAD_ESCAPE),
        });
        rest = &rest[at + 2..];
        match rest.iter().position(|&byte| byte == 0x1b) {
            Some(next) => at = next,
            None => {
                work.extend_from_slice(rest);
                return Ok(work);
            }
        }
    }
}

/// The number of at most five bytes at the front, and what stands behind it.
#[inline(always)]
fn short_varint(bytes: &[u8]) -> Option<(u64, &[u8])> {
    let (&byte, mut rest) = bytes.split_first()?;
    let mut number = u64::from(byte & 127);
    if byte < 128 {
        return Some((number, rest));
    }
    for shift in [7, 14, 21, 28] {
        let (&byte, behind) = rest.split_first()?;
        rest = behind;
        number |= u64::from(byte & 127) << shift;
        if byte < 128 {
            return Some((number, rest));
        }
    }
    None
}

/// Second and nanosecond of a sample that is just those and a value of one size, in this order, as most are.
#[inline(always)]
fn usual_sample(element: Element, message: &[u8]) -> Option<(u32, u32)> {
    let (secs, rest) = short_varint(message.strip_prefix(&[0x08])?)?;
    let (nano, rest) = short_varint(rest.strip_prefix(&[0x10])?)?;
    let &tag = rest.first()?;
    let is_whole = match element {
        Element::Fixed64 => tag == 0x19 && rest.len() == 9,
        Element::Fixed32 => tag == 0x1d && rest.len() == 5,
        Element::Sint => tag == 0x18 && short_varint(&rest[1..])?.1.is_empty(),
        Element::Bytes => false,
    };
    is_whole.then_some((secs as u32, nano as u32))
}

/// Of 16 bytes, which are newlines and which are escapes: a bit for each.
#[cfg(target_arch = "x86_64")]
#[inline(always)]
fn marks(bytes: &[u8; 16]) -> (u32, u32) {
    use std::arch::x86_64::{_mm_cmpeq_epi8, _mm_loadu_si128, _mm_movemask_epi8, _mm_set1_epi8};
    // SAFETY: SSE2 is part of x86_64, and all 16 bytes are there.
    unsafe {
        let bytes = _mm_loadu_si128(bytes.as_ptr().cast());
        let newlines = _mm_cmpeq_epi8(bytes, _mm_set1_epi8(b'\n' as i8));
        let escapes = _mm_cmpeq_epi8(bytes, _mm_set1_epi8(0x1b));
        (_mm_movemask_epi8(newlines) as u32, _mm_movemask_epi8(escapes) as u32)
    }
}

#[cfg(not(target_arch = "x86_64"))]
fn marks(bytes: &[u8; 16]) -> (u32, u32) {
    let of = |wanted: u8| bytes.iter().enumerate().map(|(i, &byte)| u32::from(byte == wanted) << i).sum();
    (of(b'\n'), of(0x1b))
}

/// Where the first newline stands, and whether an escape stands before it.
#[inline(always)]
fn line_end(bytes: &[u8]) -> Option<(usize, bool)> {
    let mut escaped = false;
    let mut at = 0;
    while let Some(piece) = bytes[at..].first_chunk::<16>() {
        let (newlines, escapes) = marks(piece);
        if newlines != 0 {
            let before = newlines ^ (newlines - 1);
            return Some((at + newlines.trailing_zeros() as usize, escaped || escapes & before != 0));
        }
        escaped |= escapes != 0;
        at += 16;
    }
    let rest = &bytes[at..];
    let end = rest.iter().position(|&byte| byte == b'\n')?;
    Some((at + end, escaped || rest[..end].contains(&0x1b)))
}

/// The chunk that is read: its header, the last moment taken, and the last line before FROM.
struct Chunk {
    header: Header,
    element: Element,
    usual: bool,
    last: Option<u64>,
    earlier: Vec<u8>,
    reached: bool,
}

enum Stop {
    Bad(Fault),
    Io,
}

impl From<io::Error> for Stop {
    fn from(_: io::Error) -> Stop {
        Stop::Io
    }
}

impl From<Fault> for Stop {
    fn from(fault: Fault) -> Stop {
        Stop::Bad(fault)
    }
}

/// What a line asks for.
enum Wish {
    /// That it is written.
    Write,
    /// That the line before FROM is written, and then it.
    WriteBoth,
    /// That the line before FROM is written, and not it.
    WriteEarlier,
    /// That an empty line is written, and then it.
    WriteApart,
    Nothing,
}

struct Extraction {
    from: u64,
    to: u64,
    chunk: Option<Chunk>,
    begun: bool,
    work: Vec<u8>,
}

impl Extraction {
    /// Takes a line with its newline.
    #[inline(always)]
    fn line(&mut self, line: &[u8], escaped: bool) -> Result<Wish, Fault> {
        let bare = &line[..line.len() - 1];
        let Some(chunk) = &mut self.chunk else {
            return self.outside(bare);
        };
        if bare.is_empty() {
            return Ok(self.end_chunk());
        }
        let message = if escaped { unescape(bare, &mut self.work)? } else { bare };
        let t = match chunk.usual.then(|| usual_sample(chunk.element, message)).flatten() {
            Some((secs, nano)) if secs < chunk.header.length && nano < 1_000_000_000 => {
                chunk.header.start + u64::from(secs) * 1_000_000_000 + u64::from(nano)
            }
            _ => read_sample(&chunk.header, message)?,
        };
        if chunk.last.is_some_and(|last| t <= last) {
            return Ok(Wish::Nothing);
        }
        chunk.last = Some(t);
        if t < self.from {
            chunk.earlier.clear();
            chunk.earlier.extend_from_slice(line);
            return Ok(Wish::Nothing);
        }
        let first = !chunk.reached;
        chunk.reached = true;
        Ok(match (first, t <= self.to) {
            (true, true) => Wish::WriteBoth,
            (true, false) => Wish::WriteEarlier,
            (false, true) => Wish::Write,
            (false, false) => Wish::Nothing,
        })
    }

    fn outside(&mut self, bare: &[u8]) -> Result<Wish, Fault> {
        if bare.is_empty() {
            return Ok(Wish::Nothing);
        }
        let header = read_header(unescape(bare, &mut self.work)?)?;
        let wish = if self.begun { Wish::WriteApart } else { Wish::Write };
        self.begun = true;
        let (element, repeated) = layout(header.payload_type);
        self.chunk = Some(Chunk { header, element, usual: !repeated, last: None, earlier: Vec::new(), reached: false });
        Ok(wish)
    }

    /// The line before FROM is left in `work`.
    fn end_chunk(&mut self) -> Wish {
        match self.chunk.take() {
            Some(chunk) if !chunk.reached => {
                self.work = chunk.earlier;
                Wish::WriteEarlier
            }
            _ => Wish::Nothing,
        }
    }

    fn earlier(&self) -> &[u8] {
        match &self.chunk {
            Some(chunk) => &chunk.earlier,
            None => &self.work,
        }
    }
}

/// Lines in one buffer, those of it that are to be written, and where they go.
struct Stream<W> {
    buffer: Vec<u8>,
    begin: usize,
    end: usize,
    kept: Range<usize>,
    out: W,
}

impl<W: Write> Stream<W> {
    /// Writes the lines that are kept.
    fn flush(&mut self) -> io::Result<()> {
        let kept = std::mem::take(&mut self.kept);
        self.out.write_all(&self.buffer[kept])
    }

    #[inline(always)]
    fn keep(&mut self, line: Range<usize>) -> io::Result<()> {
        if self.kept.end != line.start {
            self.flush()?;
            self.kept.start = line.start;
        }
        self.kept.end = line.end;
        Ok(())
    }

    #[inline(never)]
    fn wish(&mut self, wish: Wish, line: Range<usize>, earlier: &[u8]) -> io::Result<()> {
        match wish {
            Wish::Write => self.keep(line),
            Wish::Nothing => Ok(()),
            Wish::WriteApart => {
                self.flush()?;
                self.out.write_all(b"\n")?;
                self.keep(line)
            }
            Wish::WriteBoth => {
                self.flush()?;
                self.out.write_all(earlier)?;
                self.keep(line)
            }
            Wish::WriteEarlier => {
                self.flush()?;
                self.out.write_all(earlier)
            }
        }
    }

    /// Reads more behind what is held, which is moved to the front. False at the end of the input.
    fn fill(&mut self, input: &mut File) -> io::Result<bool> {
        self.flush()?;
        self.buffer.copy_within(self.begin..self.end, 0);
        self.end -= self.begin;
        self.begin = 0;
        if self.end == self.buffer.len() {
            self.buffer.resize(2 * self.end, 0);
        }
        let count = input.read(&mut self.buffer[self.end..])?;
        self.end += count;
        Ok(count > 0)
    }
}

fn run<W: Write>(number: &mut u64, from: u64, to: u64, stream: &mut Stream<W>) -> Result<(), Stop> {
    let mut input = File::open("/dev/stdin")?;
    let mut extraction = Extraction { from, to, chunk: None, begun: false, work: Vec::new() };
    loop {
        while let Some((end, escaped)) = line_end(&stream.buffer[stream.begin..stream.end]) {
            let line = stream.begin..stream.begin + end + 1;
            *number += 1;
            if end > MAX_LINE {
                return Err(LINE_TOO_LONG.into());
            }
            let wish = extraction.line(&stream.buffer[line.clone()], escaped)?;
            stream.begin = line.end;
            if let Wish::Write = wish {
                stream.keep(line)?;
            } else {
                stream.wish(wish, line, extraction.earlier())?;
            }
        }
        let held = stream.end - stream.begin;
        if held > MAX_LINE || !stream.fill(&mut input)? {
            *number += 1;
            return match held {
                0 if !extraction.begun => Err(NO_HEADER.into()),
                0 => {
                    let wish = extraction.end_chunk();
                    Ok(stream.wish(wish, 0..0, &extraction.work)?)
                }
                _ if held > MAX_LINE => Err(LINE_TOO_LONG.into()),
                _ => Err(TORN.into()),
            };
        }
    }
}

fn main() -> ExitCode {
    let words: Vec<String> = std::env::args().skip(1).collect();
    let [from, to] = &words[..] else {
        eprintln!("usage: plain FROM TO, in nanoseconds since 1970");
        return ExitCode::from(2);
    };
    let (Ok(from), Ok(to)) = (from.parse(), to.parse()) else {
        return ExitCode::from(2);
    };
    let mut number = 0;
    let Ok(out) = File::options().write(true).open("/dev/stdout") else {
        return ExitCode::from(6);
    };
    let mut stream = Stream { buffer: vec![0; 1 << 18], begin: 0, end: 0, kept: 0..0, out };
    let done = run(&mut number, from, to, &mut stream);
    let done = stream.flush().map_err(Stop::from).and(done);
    match done {
        Ok(()) => ExitCode::SUCCESS,
        Err(Stop::Bad(fault)) => {
            eprintln!("archappl: line {number}: E{fault}");
            ExitCode::from(3)
        }
        Err(Stop::Io) => ExitCode::from(5),
    }
}
