//! The text form of a list of calls, as docs/replay.md has it: reads a line, does it, prints what it prints.

use crate::chip::{Answer, Chip, Reason, AREA};
use std::io::{self, Write};

/// The replay program's memory.
pub const MEMORY: usize = 65_536;

/// The column (from 1) at which a line went wrong, and what was expected there.
#[derive(Clone, Copy, PartialEq, Eq, Debug)]
pub struct Bad {
    pub column: usize,
    pub expected: &'static str,
}

#[derive(Clone, Copy)]
enum Area {
    Memory,
    Holding,
    Outgoing,
}

/// Bytes as they were written; of a frame that is much too long only the beginning is made.
struct Bytes {
    bytes: Vec<u8>,
    length: u64,
}

impl Bytes {
    const MADE: u64 = MEMORY as u64;

    fn push(&mut self, count: u64, byte: u8) {
        let made = count.min(Self::MADE.saturating_sub(self.bytes.len() as u64));
        self.bytes.resize(self.bytes.len() + made as usize, byte);
        self.length = self.length.saturating_add(count);
    }
}

enum Line<'a> {
    Nothing,
    Size(usize),
    Reset,
    Attention,
    Arrival(u32, Bytes),
    Turn(u32, u16),
    Run(u16, u16),
    Bytes(Area, usize, Bytes),
    Words(Area, usize, Vec<u16>),
    Show(Area, usize, usize),
    Look(Area, usize, usize),
    Interrupt,
    Record,
    Say(&'a [u8]),
}

/// A line's words, from left to right, each with its column.
struct Words<'a> {
    text: &'a [u8],
    place: usize,
}

fn blank(byte: u8) -> bool {
    byte == b' ' || byte == b'\t'
}

impl<'a> Words<'a> {
    fn next(&mut self) -> Option<(&'a [u8], usize)> {
        while self.place < self.text.len() && blank(self.text[self.place]) {
            self.place += 1;
        }
        let start = self.place;
        while self.place < self.text.len() && !blank(self.text[self.place]) {
            self.place += 1;
        }
        (start < self.place).then(|| (&self.text[start..self.place], start + 1))
    }

    fn more(&self) -> bool {
        self.text[self.place..].iter().any(|&byte| !blank(byte))
    }

    /// "the number is missing: one behind the line's last character that is no comment and no blank"
    fn missing(&self) -> usize {
        self.text.iter().rposition(|&byte| !blank(byte)).map_or(0, |last| last + 1) + 1
    }

    fn number(&mut self) -> Result<(u32, usize), Bad> {
        let expected = "a number";
        let (word, column) = match self.next() {
            Some(found) => found,
            None => return Err(Bad { column: self.missing(), expected }),
        };
        number(word).map(|value| (value, column)).ok_or(Bad { column, expected })
    }

    fn number_to(&mut self, most: u32, expected: &'static str) -> Result<u32, Bad> {
        let (value, column) = self.number()?;
        if value > most { Err(Bad { column, expected }) } else { Ok(value) }
    }

    fn area_and_place(&mut self) -> Result<(Area, usize, usize), Bad> {
        let expected = "an area";
        let (word, column) = match self.next() {
            Some(found) => found,
            None => return Err(Bad { column: self.missing(), expected }),
        };
        let area = match word {
            b"memory" => Area::Memory,
            b"holding" => Area::Holding,
            b"outgoing" => Area::Outgoing,
            _ => return Err(Bad { column, expected }),
        };
        let (place, column) = self.number()?;
        if place as usize >= area.size() {
            return Err(Bad { column, expected: "a place in the area" });
        }
        Ok((area, place as usize, column))
    }

    fn bytes(&mut self) -> Result<Bytes, Bad> {
        let mut bytes = Bytes { bytes: Vec::new(), length: 0 };
        while let Some((word, column)) = self.next() {
            piece(word, &mut bytes).ok_or(Bad { column, expected: "bytes" })?;
        }
        Ok(bytes)
    }

    fn end(&mut self) -> Result<(), Bad> {
        match self.next() {
            Some((_, column)) => Err(Bad { column, expected: "the end of the line" }),
            None => Ok(()),
        }
    }
}

impl Area {
    fn size(self) -> usize {
        match self {
            Area::Memory => MEMORY,
            _ => AREA,
        }
    }

    /// "`room in the area` is judged last", at the column of the place.
    fn room(self, place: usize, count: u64, column: usize) -> Result<(), Bad> {
        if count > (self.size() - place) as u64 { Err(Bad { column, expected: "room in the area" }) } else { Ok(()) }
    }
}

fn digit(byte: u8, radix: u32) -> Option<u32> {
    char::from(byte).to_digit(radix)
}

/// "A NUMBER is decimal, or hex digits with `h` behind them. It is at most 4,294,967,295."
fn number(word: &[u8]) -> Option<u32> {
    let (digits, radix) = match word.split_last() {
        Some((b'h', digits)) => (digits, 16),
        _ => (word, 10),
    };
    if digits.is_empty() {
        return None;
    }
    digits.iter().try_fold(0u32, |value, &byte| value.checked_mul(radix)?.checked_add(digit(byte, radix)?))
}

/// "an even number of hex digits, two to a byte, or `COUNTxHH`, the byte HH so often (COUNT in decimal)"
fn piece(word: &[u8], into: &mut Bytes) -> Option<()> {
    if let Some(x) = word.iter().position(|&byte| byte == b'x') {
        let (count, byte) = (&word[..x], &word[x + 1..]);
        if count.is_empty() || byte.len() != 2 {
            return None;
        }
        let mut times = 0u64;
        for &byte in count {
            times = times.saturating_mul(10).saturating_add(digit(byte, 10)?.into());
        }
        into.push(times, pair(byte)?);
        return Some(());
    }
    if word.len() % 2 != 0 {
        return None;
    }
    for two in word.chunks(2) {
        into.push(1, pair(two)?);
    }
    Some(())
}

fn pair(two: &[u8]) -> Option<u8> {
    Some((digit(two[0], 16)? * 16 + digit(two[1], 16)?) as u8)
}

/// Reads a line, without its newline.
fn read(text: &[u8]) -> Result<Line<'_>, Bad> {
    let text = text.split(|&byte| byte == b'#').next().unwrap_or(&[]);
    let mut words = Words { text, place: 0 };
    let (first, column) = match words.next() {
        Some(found) => found,
        None => return Ok(Line::Nothing),
    };
    let word = "a number up to 65535";
    let line = match first {
        b"size" => Line::Size(words.number_to(65_536, "a number up to 65536")? as usize),
        b"reset" => Line::Reset,
        b"attention" => Line::Attention,
        b"arrival" => {
            let (verdict, _) = words.number()?;
            Line::Arrival(verdict, words.bytes()?)
        }
        b"turn" => {
            let count = if words.more() { words.number_to(65_535, word)? } else { 1 };
            let report = if words.more() { words.number_to(65_535, word)? } else { 0 };
            Line::Turn(count, report as u16)
        }
        b"run" => {
            let budget = words.number_to(65_535, word)?;
            let report = if words.more() { words.number_to(65_535, word)? } else { 0 };
            Line::Run(budget as u16, report as u16)
        }
        b"bytes" => {
            let (area, place, column) = words.area_and_place()?;
            let bytes = words.bytes()?;
            area.room(place, bytes.length, column)?;
            Line::Bytes(area, place, bytes)
        }
        b"words" => {
            let (area, place, column) = words.area_and_place()?;
            let mut values = Vec::new();
            while words.more() {
                values.push(words.number_to(65_535, word)? as u16);
            }
            area.room(place, 2 * values.len() as u64, column)?;
            Line::Words(area, place, values)
        }
        b"show" | b"look" => {
            let (area, place, column) = words.area_and_place()?;
            let (count, _) = words.number()?;
            words.end()?;
            let show = first == b"show";
            area.room(place, u64::from(count) * if show { 1 } else { 2 }, column)?;
            if show { Line::Show(area, place, count as usize) } else { Line::Look(area, place, count as usize) }
        }
        b"interrupt" => Line::Interrupt,
        b"record" => Line::Record,
        b"say" => {
            let rest = &text[words.place..];
            let start = rest.iter().position(|&byte| !blank(byte)).unwrap_or(rest.len());
            return Ok(Line::Say(&rest[start..]));
        }
        _ => return Err(Bad { column, expected: "a line's first word" }),
    };
    words.end()?;
    Ok(line)
}

/// The replay program's state.
pub struct Replay {
    pub chip: Chip,
    /// A `record` line was met: its layout is not the model's to say.
    pub record: bool,
}

impl Replay {
    pub fn new() -> Replay {
        Replay { chip: Chip::new(MEMORY), record: false }
    }

    /// Does one line (without its newline) and prints what it prints. The number of calls made comes back.
    pub fn line(&mut self, text: &[u8], out: &mut dyn Write) -> io::Result<Result<u32, Bad>> {
        let line = match read(text) {
            Ok(line) => line,
            Err(bad) => return Ok(Err(bad)),
        };
        let mut calls = 0;
        match line {
            Line::Nothing => {}
            Line::Size(n) => self.chip.n = n,
            Line::Reset => {
                calls = 1;
                answer(self.chip.reset(), 0, out)?;
            }
            Line::Attention => {
                calls = 1;
                answer(self.chip.attention(), 0, out)?;
            }
            Line::Arrival(verdict, frame) => {
                calls = 1;
                answer(self.chip.arrival(&frame.bytes, frame.length, verdict), 0, out)?;
            }
            Line::Turn(count, report) => {
                calls = count;
                for _ in 0..count {
                    answer(self.chip.turn(report), 0, out)?;
                }
            }
            Line::Run(budget, report) => {
                calls = 1;
                let (last, taken) = self.chip.run(budget, report);
                answer(last, taken, out)?;
            }
            Line::Bytes(area, place, bytes) => {
                self.area_mut(area)[place..place + bytes.bytes.len()].copy_from_slice(&bytes.bytes);
            }
            Line::Words(area, place, words) => {
                let area = self.area_mut(area);
                for (i, word) in words.iter().enumerate() {
                    area[place + 2 * i..place + 2 * i + 2].copy_from_slice(&word.to_le_bytes());
                }
            }
            Line::Show(area, place, count) => {
                let bytes = &self.area(area)[place..place + count];
                for (i, row) in bytes.chunks(16).enumerate() {
                    write!(out, "{:04X}:", place + 16 * i)?;
                    for byte in row {
                        write!(out, " {byte:02X}")?;
                    }
                    writeln!(out)?;
                }
            }
            Line::Look(area, place, count) => {
                let bytes = &self.area(area)[place..place + 2 * count];
                for (i, row) in bytes.chunks(16).enumerate() {
                    write!(out, "{:04X}:", place + 16 * i)?;
                    for word in row.chunks(2) {
                        write!(out, " {:02X}{:02X}", word[1], word[0])?;
                    }
                    writeln!(out)?;
                }
            }
            // "Interrupt is high when bits 15-12 are not all zero."
            Line::Interrupt => writeln!(out, "interrupt {}", if self.chip.device.events != 0 { "high" } else { "low" })?,
            Line::Record => self.record = true,
            Line::Say(rest) => {
                out.write_all(rest)?;
                writeln!(out)?;
            }
        }
        Ok(Ok(calls))
    }

    fn area(&self, area: Area) -> &[u8] {
        match area {
            Area::Memory => &self.chip.memory,
            Area::Holding => &self.chip.holding,
            Area::Outgoing => &self.chip.outgoing,
        }
    }

    fn area_mut(&mut self, area: Area) -> &mut [u8] {
        match area {
            Area::Memory => &mut self.chip.memory,
            Area::Holding => &mut self.chip.holding,
            Area::Outgoing => &mut self.chip.outgoing,
        }
    }
}

/// "An answer is a line of three numbers"; behind them stands how many turns a run has taken, and behind these why a frame was dropped. What
/// is not there is not told.
fn answer(answer: Answer, taken: u16, out: &mut dyn Write) -> io::Result<()> {
    write!(out, "{} {} {}", answer.number, answer.length, u8::from(answer.edge))?;
    if taken != 0 {
        write!(out, " {taken}")?;
    }
    if let Some(why) = answer.why {
        write!(out, " {}", word(why))?;
    }
    writeln!(out)
}

fn word(why: Reason) -> &'static str {
    match why {
        Reason::TooFew => "too-few",
        Reason::NoMatch => "no-match",
        Reason::Idle => "idle",
        Reason::Suspended => "suspended",
        Reason::Bad => "bad",
    }
}

/// A list's lines. A last line without a newline is a line; nothing behind the last newline is none.
fn lines(list: &[u8]) -> Vec<&[u8]> {
    let mut lines: Vec<&[u8]> = list.split(|&byte| byte == b'\n').collect();
    if lines.last().map_or(false, |last| last.is_empty()) {
        lines.pop();
    }
    lines
}

/// Says which line of a list prints this line of its output, and which call was the last before or at it.
pub fn find(list: &[u8], wanted: u64, out: &mut dyn Write) -> io::Result<()> {
    let mut replay = Replay::new();
    let (mut printed, mut call) = (0, None);
    for (i, line) in lines(list).into_iter().enumerate() {
        let mut said = Vec::new();
        let done = replay.line(line, &mut said)?;
        let text = String::from_utf8_lossy(&line[..line.len().min(100)]);
        if done.as_ref().map_or(false, |&calls| calls > 0) {
            call = Some((i + 1, text.to_string()));
        }
        printed += said.iter().filter(|&&byte| byte == b'\n').count() as u64;
        if printed >= wanted || done.is_err() {
            writeln!(out, "  list line {}: {text}", i + 1)?;
            if let Some((at, text)) = call {
                writeln!(out, "  last call, list line {at}: {text}")?;
            }
            break;
        }
    }
    Ok(())
}

/// Runs a whole list, its answers to `out` and the fault of a bad line to `errors`. Comes back: whether a line went wrong, and whether a
/// `record` line was met.
pub fn run(list: &[u8], out: &mut dyn Write, errors: &mut dyn Write) -> io::Result<(bool, bool)> {
    let mut replay = Replay::new();
    for (i, line) in lines(list).into_iter().enumerate() {
        if let Err(bad) = replay.line(line, out)? {
            writeln!(errors, "line {}, column {}: expected {}", i + 1, bad.column, bad.expected)?;
            return Ok((true, replay.record));
        }
    }
    Ok((false, replay.record))
}
