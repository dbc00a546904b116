//! The chip, as document 01 (`01-scope.md`, "the law") has it, mended by document 02's Wishes 1, 3 and 4: where both speak, 02 is followed.
//! Names of sections and sentences in the comments are document 01's, unless 02 or the handbook, document 000, is named.
//! An offset is a `u16`, a real address a `u32`: the only way from the one to the other is `at`.

use std::cell::RefCell;
use std::collections::BTreeMap;

/// Length of the holding area and of the outgoing area, and the longest frame.
pub const AREA: usize = 2048;

// Events, at their places in the SCB's words.
pub const CX: u16 = 0x8000;
pub const FR: u16 = 0x4000;
pub const CNA: u16 = 0x2000;
pub const RNR: u16 = 0x1000;

// The SCB's counters, by their fields.
const CRCERRS: u32 = 8;
const ALNERRS: u32 = 10;
const RSCERRS: u32 = 12;
const OVRNERRS: u32 = 14;

/// An offset that is none (only in pointers to buffer descriptors).
pub const NONE: u16 = 0xFFFF;

/// "Every command and every held frame takes a begin turn, at most 64 buffer turns and an end turn."
const MOST: u8 = 64;

/// "An answer is the number (0 if not refused), the length sent (0 if none) and the edge." 02: "An arrival that is dropped also says why"
#[derive(Clone, Copy, PartialEq, Eq, Debug)]
pub struct Answer {
    pub number: u8,
    pub length: u16,
    pub edge: bool,
    pub why: Option<Reason>,
}

impl Answer {
    fn refusal(number: u8) -> Answer {
        Answer { number, length: 0, edge: false, why: None }
    }

    fn done(length: u16, edge: bool) -> Answer {
        Answer { number: 0, length, edge, why: None }
    }
}

/// 02: "too few bytes, no match, unit Idle, unit Suspended, or bad and not saved"
#[derive(Clone, Copy, PartialEq, Eq, Debug)]
pub enum Reason {
    TooFew,
    NoMatch,
    Idle,
    Suspended,
    Bad,
}

impl Reason {
    /// Its name in what is met.
    fn name(self) -> &'static str {
        match self {
            Reason::TooFew => "too few bytes",
            Reason::NoMatch => "no match",
            Reason::Idle => "Idle",
            Reason::Suspended => "Suspended",
            Reason::Bad => "bad",
        }
    }
}

/// What becomes of a frame that arrives.
#[derive(Clone, Copy, PartialEq, Eq, Debug)]
enum Fate {
    /// A bad one may be counted: it is dropped all the same.
    Dropped { why: Reason, counter: Option<u32> },
    /// Not dropped but lost: its counter says why.
    Lost { counter: u32 },
    Held { held: Held, counter: Option<u32> },
}

/// The longest address, which is that after reset too.
const LONGEST: u8 = 6;

/// The type's bytes, in a header.
const TYPE: u16 = 2;

/// 02: "Configure shall accept lengths 0 to 6 and address location 1."
#[derive(Clone, Copy, PartialEq, Eq, Debug)]
pub struct Header {
    /// The address length.
    pub address: u8,
    /// Location 1: "with location 1 the whole frame goes through buffers both ways".
    pub in_buffers: bool,
}

impl Header {
    /// "Reset: 6 for address length", "those bits 0".
    pub const AFTER_RESET: Header = Header { address: LONGEST, in_buffers: false };

    /// 02: "The header has twice the length plus two bytes"
    pub fn bytes(self) -> u16 {
        2 * u16::from(self.address) + TYPE
    }

    /// How many of them a block or a frame descriptor has. All others of the frame go through buffers.
    pub fn apart(self) -> u16 {
        if self.in_buffers { 0 } else { self.bytes() }
    }

    /// 02: "Block and descriptor fields are packed": where the type of a Transmit block is.
    fn type_field(self) -> u32 {
        8 + u32::from(self.address)
    }

    /// Its name in what is met.
    pub fn name(self) -> String {
        format!("length {}, location {}", self.address, u8::from(self.in_buffers))
    }
}

/// "0 good, 1 CRC, any other value misaligned"
#[derive(Clone, Copy, PartialEq, Eq, Debug)]
pub enum Verdict {
    Good,
    Crc,
    Misaligned,
}

impl Verdict {
    fn of(number: u32) -> Verdict {
        match number {
            0 => Verdict::Good,
            1 => Verdict::Crc,
            _ => Verdict::Misaligned,
        }
    }
}

/// What is kept of a command from its begin turn on.
#[derive(Clone, Copy, PartialEq, Eq, Debug)]
pub struct Begun {
    pub kind: u8,
    pub el: bool,
    pub s: bool,
    pub i: bool,
    /// A SUSPEND waits for the command's end.
    pub suspend: bool,
    pub step: Send,
}

#[derive(Clone, Copy, PartialEq, Eq, Debug)]
pub enum Send {
    /// The next turn reads this descriptor; so many were read; so many bytes stand in the outgoing area.
    Buffer { descriptor: u16, used: u8, length: u16 },
    /// The end turn is next.
    End { failed: bool, length: u16 },
}

#[derive(Clone, Copy, PartialEq, Eq, Debug)]
pub enum Cu {
    Idle,
    Suspended { next: u16 },
    Active { block: u16, begun: Option<Begun> },
}

/// A held frame: what was judged at its arrival.
#[derive(Clone, Copy, PartialEq, Eq, Debug)]
pub struct Held {
    pub length: u16,
    pub verdict: Verdict,
    pub short: bool,
    pub save_bad: bool,
    /// 02: "A held frame is stored by the length and location it arrived under, whatever Configure has said since."
    pub header: Header,
    pub begun: Option<Storing>,
}

impl Held {
    /// The bytes that go to buffers.
    fn data(self) -> u16 {
        self.length - self.header.apart()
    }
}

/// What is kept of a frame descriptor from the begin turn on.
#[derive(Clone, Copy, PartialEq, Eq, Debug)]
pub struct Storing {
    pub el: bool,
    pub s: bool,
    pub step: Store,
}

#[derive(Clone, Copy, PartialEq, Eq, Debug)]
pub enum Store {
    /// The next turn reads this descriptor; so many were read; so many data bytes are stored.
    Buffer { descriptor: u16, used: u8, stored: u16 },
    /// The end turn is next. `free` is the next free offset, `last_el` the EL of the last buffer used.
    End { out: bool, free: u16, last_el: bool },
}

#[derive(Clone, Copy, PartialEq, Eq, Debug)]
pub enum Ru {
    Idle,
    Suspended { next: u16 },
    NoResources,
    Ready { descriptor: u16, suspend: bool, held: Option<Held> },
}

#[derive(Clone, Copy, PartialEq, Eq, Debug)]
pub struct Scb {
    pub base: u32,
    pub offset: u16,
}

/// Where the filter came from. No rule reads it: the generator aims by it, and it tells apart what passes alike.
#[derive(Clone, PartialEq, Eq, Debug, Default)]
pub struct Listed {
    /// The last MC-Setup's addresses, and how many bytes each had.
    pub addresses: Vec<Vec<u8>>,
    pub length: u8,
    /// What the filter would be by those of them with the low bit set; by a list read behind the status; by the list before alone.
    pub groups: u64,
    pub late: u64,
    pub before: u64,
}

#[derive(Clone, PartialEq, Eq, Debug)]
pub struct Device {
    /// Where the SCB is; none before the first attention.
    pub scb: Option<Scb>,
    pub events: u16,
    pub cu: Cu,
    pub ru: Ru,
    /// The unit served at the last working turn was RU.
    pub ru_last: bool,
    pub own: [u8; 6],
    /// The address length at the last IA-Setup. No rule reads it.
    pub own_length: u8,
    /// Bit h is set if the hash of an address that the last MC-Setup had is h.
    pub filter: u64,
    pub listed: Listed,
    pub save_bad: bool,
    pub promiscuous: bool,
    pub no_broadcast: bool,
    pub minimum: u8,
    pub header: Header,
}

impl Device {
    /// "After reset the address is six FFh." "Reset: 6 for address length, 64 for minimum length, those bits 0." "after reset RU first"
    pub fn fresh() -> Device {
        Device {
            scb: None,
            events: 0,
            cu: Cu::Idle,
            ru: Ru::Idle,
            ru_last: false,
            own: [0xFF; 6],
            own_length: LONGEST,
            filter: 0,
            listed: Listed::default(),
            save_bad: false,
            promiscuous: false,
            no_broadcast: false,
            minimum: 64,
            header: Header::AFTER_RESET,
        }
    }

    /// 02: "of the own address the first bytes, up to the length, count"
    pub fn own_address(&self) -> &[u8] {
        &self.own[..usize::from(self.header.address)]
    }

    /// "10-8 CUS (0 Idle, 1 Suspended, 2 Active); 6-4 RUS (0 Idle, 1 Suspended, 2 No Resources, 4 Ready)"
    pub fn status(&self) -> u16 {
        let cus = match self.cu {
            Cu::Idle => 0,
            Cu::Suspended { .. } => 1,
            Cu::Active { .. } => 2,
        };
        let rus = match self.ru {
            Ru::Idle => 0,
            Ru::Suspended { .. } => 1,
            Ru::NoResources => 2,
            Ru::Ready { .. } => 4,
        };
        self.events | cus << 8 | rus << 4
    }

    pub fn held(&self) -> Option<Held> {
        match self.ru {
            Ru::Ready { held, .. } => held,
            _ => None,
        }
    }

    pub fn begun(&self) -> Option<Begun> {
        match self.cu {
            Cu::Active { begun, .. } => begun,
            _ => None,
        }
    }

    /// "RU has work while a frame is held, CU while Active."
    pub fn ru_works(&self) -> bool {
        self.held().is_some()
    }

    pub fn cu_works(&self) -> bool {
        matches!(self.cu, Cu::Active { .. })
    }

    /// A Transmit of no bytes is at its end turn.
    fn ends_empty(&self) -> bool {
        matches!(self.begun(), Some(Begun { kind: 4, step: Send::End { failed: false, length: 0 }, .. }))
    }

    pub fn cu_name(&self) -> &'static str {
        match self.cu {
            Cu::Idle => "Idle",
            Cu::Suspended { .. } => "Suspended",
            Cu::Active { begun: None, .. } => "Active, not begun",
            Cu::Active { begun: Some(b), .. } if b.suspend => "Active, SUSPEND waits",
            Cu::Active { .. } => "Active, begun",
        }
    }

    pub fn ru_name(&self) -> &'static str {
        match self.ru {
            Ru::Idle => "Idle",
            Ru::Suspended { .. } => "Suspended",
            Ru::NoResources => "No Resources",
            Ru::Ready { held: None, .. } => "Ready",
            Ru::Ready { suspend: true, .. } => "Ready, SUSPEND waits",
            Ru::Ready { held: Some(h), .. } if h.begun.is_none() => "Ready, held",
            Ru::Ready { .. } => "Ready, begun",
        }
    }
}

/// A stretch of an area that the last call wrote.
#[derive(Clone, Copy, PartialEq, Eq, Debug)]
pub enum Wrote {
    Memory(usize, usize),
    Holding(usize, usize),
    Outgoing(usize, usize),
}

pub struct Chip {
    /// The first `n` bytes are lent.
    pub memory: Vec<u8>,
    pub n: usize,
    pub holding: Vec<u8>,
    pub outgoing: Vec<u8>,
    /// The record is a chip's: a reset was made.
    pub made: bool,
    pub device: Device,
    /// Events that the present call raised.
    raised: u16,
    /// What the last call wrote, and what was met how often (for the generator).
    pub wrote: Vec<Wrote>,
    pub met: RefCell<BTreeMap<String, u64>>,
}

impl Chip {
    pub fn new(size: usize) -> Chip {
        Chip {
            memory: vec![0; size],
            n: size,
            holding: vec![0; AREA],
            outgoing: vec![0; AREA],
            made: false,
            device: Device::fresh(),
            raised: 0,
            wrote: Vec::new(),
            met: RefCell::new(BTreeMap::new()),
        }
    }

    /// Counts that something was met.
    pub fn note(&self, what: &str) {
        let mut met = self.met.borrow_mut();
        match met.get_mut(what) {
            Some(count) => *count += 1,
            None => {
                met.insert(what.to_string(), 1);
            }
        }
    }

    fn note_if(&self, so: bool, what: &str) {
        if so {
            self.note(what);
        }
    }

    // ---- Memory. "Words are low byte first." "Any address is taken modulo N, byte by byte" ----

    fn byte(&self, address: u32) -> u8 {
        self.memory[address as usize % self.n]
    }

    pub fn word(&self, address: u32) -> u16 {
        self.note_if(address as usize % self.n == self.n - 1, "a word over the end of memory is read");
        u16::from_le_bytes([self.byte(address), self.byte(address + 1)])
    }

    /// "A real address has 24 bits: a word, then the low byte of the next word."
    fn real(&self, address: u32) -> u32 {
        u32::from_le_bytes([self.byte(address), self.byte(address + 1), self.byte(address + 2), 0])
    }

    fn set_byte(&mut self, address: u32, value: u8) {
        let index = address as usize % self.n;
        self.memory[index] = value;
        match self.wrote.last_mut() {
            Some(Wrote::Memory(start, count)) if *start + *count == index => *count += 1,
            _ => self.wrote.push(Wrote::Memory(index, 1)),
        }
    }

    fn set_word(&mut self, address: u32, value: u16) {
        self.note_if(address as usize % self.n == self.n - 1, "a word over the end of memory is written");
        self.set_byte(address, value as u8);
        self.set_byte(address + 1, (value >> 8) as u8);
    }

    /// "An offset has 16 bits; its address is the SCB base plus the offset": the field of what lies there.
    pub fn at(&self, offset: u16, field: u32) -> u32 {
        self.device.scb.map_or(0, |scb| scb.base) + u32::from(offset) + field
    }

    /// A field of the SCB.
    pub fn scb(&self, field: u32) -> u32 {
        self.at(self.device.scb.map_or(0, |scb| scb.offset), field)
    }

    /// A write to a block, a descriptor or a buffer lies over the SCB.
    fn over_scb(&self, address: u32, length: u32) -> bool {
        let n = self.n as u32;
        let from_scb = (address % n + n - self.scb(0) % n) % n;
        from_scb < 16 || from_scb + length > n
    }

    /// Two words share a byte.
    fn meet(&self, one: u32, other: u32) -> bool {
        let n = self.n as u32;
        let apart = (one % n + n - other % n) % n;
        apart <= 1 || apart == n - 1
    }

    /// A stretch of memory from an address on reaches, perhaps over the end, one of these two bytes.
    fn reaches(&self, address: u32, length: u32, word: u32) -> bool {
        let n = self.n as u32;
        [word, word + 1].into_iter().any(|byte| (byte % n + n - address % n) % n < length)
    }

    fn set_field(&mut self, address: u32, value: u16) {
        self.note_if(self.over_scb(address, 2), "a block or descriptor is written over the SCB");
        self.set_word(address, value);
    }

    // ---- Refusals ----

    /// "N a power of two (exactly one bit set) from 8,192 to 16,777,216"
    fn allowed(&self) -> bool {
        self.n.count_ones() == 1 && (8_192..=16_777_216).contains(&self.n)
    }

    /// The first of the order 1, 21, 22, 23, 3, 4 that applies is given (02). Numbers 21 to 23 cannot be: the areas' lengths are right here.
    /// Number 4: the record is a chip's from the first reset on, since the host does not alter it.
    fn refused(&self, call: &str, length: u64) -> Option<Answer> {
        let overlong = length > AREA as u64;
        let number = if !self.allowed() {
            self.note_if(overlong, "refusal 1 goes before 3");
            self.note_if(!self.made, "refusal 1 goes before 4");
            1
        } else if overlong {
            self.note_if(!self.made, "refusal 3 goes before 4");
            3
        } else if !self.made {
            4
        } else {
            return None;
        };
        self.note(&format!("refusal {number} of {call}"));
        Some(Answer::refusal(number))
    }

    // ---- Reset ----

    /// "Reset takes the record alone, ignores its content and writes a fresh one"
    pub fn reset(&mut self) -> Answer {
        self.wrote.clear();
        self.note("reset");
        self.note_if(!self.allowed(), "reset with a size that is not allowed");
        self.note_if(self.made && self.device.ru_works(), "reset with a frame held");
        self.note_if(self.made && self.device.begun().is_some(), "reset with a command begun");
        self.made = true;
        self.device = Device::fresh();
        Answer::done(0, false)
    }

    // ---- Attention ----

    pub fn attention(&mut self) -> Answer {
        self.wrote.clear();
        if let Some(answer) = self.refused("attention", 0) {
            return answer;
        }
        self.raised = 0;
        if self.device.scb.is_none() {
            return self.first_attention();
        }
        // "An attention, in order: read command; if RESET, write command 0 and become as after reset, nothing else"
        let command = self.word(self.scb(2));
        if command & 0x0080 != 0 {
            self.note(&format!("resetting attention, CU {}", self.device.cu_name()));
            self.note(&format!("resetting attention, RU {}", self.device.ru_name()));
            self.note_if(self.device.events != 0, "resetting attention with events set");
            self.set_word(self.scb(2), 0);
            self.device = Device::fresh();
            return Answer::done(0, false);
        }
        // "clear acknowledged events; obey CUC; obey RUC; write status; write command 0"
        for (event, name) in [(CX, "CX"), (FR, "FR"), (CNA, "CNA"), (RNR, "RNR")] {
            self.note_if(command & self.device.events & event != 0, &format!("{name} acknowledged"));
        }
        self.device.events &= !(command & 0xF000);
        let (cuc, ruc) = (command >> 8 & 7, command >> 4 & 7);
        let offsets = (self.word(self.scb(4)), self.word(self.scb(6)), self.device.cu_works());
        self.obey_cuc(cuc);
        let ready = matches!(self.device.ru, Ru::Ready { .. });
        self.note_if(ruc == 1 && !ready && self.word(self.scb(6)) != offsets.1, "order: a CU abort writes what RU START reads");
        self.obey_ruc(ruc);
        self.note_if(cuc == 1 && !offsets.2 && self.word(self.scb(4)) != offsets.0, "order: an RU abort writes what CU START read");
        self.note_if(command & 0xF000 & self.raised != 0, "an event acknowledged and raised in one attention");
        self.set_word(self.scb(0), self.device.status());
        self.set_word(self.scb(2), 0);
        // "An edge is reported when an event is raised, again included, or an attention leaves any event set."
        let edge = self.device.events != 0;
        self.note(if edge { "attention with an edge" } else { "attention without an edge" });
        Answer::done(0, edge)
    }

    /// "SCP is at FFFFF6h; its pointer to ISCP is the real address at FFFFFCh. ISCP: BUSY byte +0, SCB offset +2, SCB base (real) +4.
    /// The chip reads these, clears BUSY, writes SCB status A000h (CX, CNA) and command 0000h, both units Idle."
    fn first_attention(&mut self) -> Answer {
        self.note("first attention");
        let iscp = self.real(0xFF_FFFC);
        let offset = self.word(iscp + 2);
        let base = self.real(iscp + 4);
        self.device.scb = Some(Scb { base, offset });
        self.note_if(self.word(self.scb(2)) & 0x0080 != 0, "first attention over a RESET bit");
        self.set_byte(iscp, 0);
        self.device.events = CX | CNA;
        self.set_word(self.scb(0), self.device.status());
        self.set_word(self.scb(2), 0);
        Answer::done(0, true)
    }

    fn raise(&mut self, event: u16) {
        self.note_if(self.device.events & event != 0, "an event raised again");
        self.device.events |= event;
        self.raised |= event;
    }

    /// The table's CU column. "Every other pair does nothing (ours). Leaving Active raises CNA". "CU abort of a begun command writes its
    /// status 9000h."
    fn obey_cuc(&mut self, code: u16) {
        self.note(&format!("CU code {code} in {}", self.device.cu_name()));
        self.device.cu = match (code, self.device.cu) {
            (1, Cu::Idle | Cu::Suspended { .. }) => Cu::Active { block: self.word(self.scb(4)), begun: None },
            (2, Cu::Suspended { next }) => Cu::Active { block: next, begun: None },
            (3, Cu::Active { block, begun: None }) => {
                self.raise(CNA);
                Cu::Suspended { next: block }
            }
            (3, Cu::Active { block, begun: Some(begun) }) => Cu::Active { block, begun: Some(Begun { suspend: true, ..begun }) },
            (4, Cu::Active { block, begun }) => {
                if let Some(begun) = begun {
                    let phase = match begun.step {
                        Send::Buffer { .. } => "a buffer turn",
                        Send::End { failed: true, .. } => "a failing end",
                        Send::End { failed: false, .. } => "the end",
                    };
                    self.note(&format!("abort of command {} before {phase}", begun.kind));
                    self.set_field(self.at(block, 0), 0x9000);
                }
                self.raise(CNA);
                Cu::Idle
            }
            (4, _) => Cu::Idle,
            (_, cu) => cu,
        };
    }

    /// The table's RU column. "leaving Ready raises RNR". "RU abort drops a held frame uncounted and writes 0000h to its frame
    /// descriptor if begun."
    fn obey_ruc(&mut self, code: u16) {
        self.note(&format!("RU code {code} in {}", self.device.ru_name()));
        self.device.ru = match (code, self.device.ru) {
            (1, Ru::Idle | Ru::Suspended { .. } | Ru::NoResources) => self.ready(self.word(self.scb(6))),
            (2, Ru::Suspended { next }) => self.ready(next),
            (3, Ru::Ready { descriptor, held: None, .. }) => {
                self.raise(RNR);
                Ru::Suspended { next: descriptor }
            }
            (3, Ru::Ready { descriptor, held, .. }) => Ru::Ready { descriptor, suspend: true, held },
            (4, Ru::Ready { descriptor, held, .. }) => {
                if let Some(held) = held {
                    self.note(match held.begun.map(|begun| begun.step) {
                        None => "abort of a held frame before its begin",
                        Some(Store::Buffer { used: 0, .. }) => "abort of a held frame before its first buffer turn",
                        Some(Store::Buffer { .. }) => "abort of a held frame before a later buffer turn",
                        Some(Store::End { out: true, .. }) => "abort of a held frame before its end, out of buffers",
                        Some(Store::End { .. }) => "abort of a held frame before its end",
                    });
                    if held.begun.is_some() {
                        self.set_field(self.at(descriptor, 0), 0x0000);
                    }
                }
                self.raise(RNR);
                Ru::Idle
            }
            (4, _) => Ru::Idle,
            (_, ru) => ru,
        };
    }

    fn ready(&self, descriptor: u16) -> Ru {
        Ru::Ready { descriptor, suspend: false, held: None }
    }

    // ---- Turn ----

    /// "If both have, the unit not served at the last working turn is served; after reset RU first. With no work a turn changes
    /// nothing." Status is written "as the last write, at every turn that raises an event or changes a unit's state": each change of a
    /// state in a turn raises an event.
    pub fn turn(&mut self, report: u16) -> Answer {
        self.wrote.clear();
        if let Some(answer) = self.refused("turn", 0) {
            return answer;
        }
        self.raised = 0;
        let serve_ru = match (self.device.ru_works(), self.device.cu_works()) {
            (false, false) => {
                self.note(if self.device.scb.is_none() { "turn before the first attention" } else { "turn with no work" });
                return Answer::done(0, false);
            }
            (true, false) => {
                self.note("turn, RU alone");
                true
            }
            (false, true) => {
                self.note("turn, CU alone");
                false
            }
            (true, true) => {
                self.note(if self.device.ru_last { "turn, both: CU" } else { "turn, both: RU" });
                !self.device.ru_last
            }
        };
        self.device.ru_last = serve_ru;
        let length = if serve_ru {
            self.serve_ru();
            0
        } else {
            self.serve_cu(report)
        };
        let edge = self.raised != 0;
        if edge {
            self.set_word(self.scb(0), self.device.status());
        }
        Answer::done(length, edge)
    }

    /// docs/replay.md: "It ends when BUDGET turns are taken, or behind the first one that has sent a frame, reported an edge or had no work;
    /// that one counts." The last turn's answer comes back, and how many were taken.
    pub fn run(&mut self, budget: u16, report: u16) -> (Answer, u16) {
        self.wrote.clear();
        if let Some(answer) = self.refused("run", 0) {
            return (answer, 0);
        }
        self.note_if(budget == 0, "run of budget 0");
        self.note_if(self.device.ru_works(), "run with a frame held");
        self.note_if(self.device.ru_works() && self.device.cu_works(), "run of both units");
        let (mut wrote, mut last, mut taken) = (Vec::new(), Answer::done(0, false), 0);
        while taken < budget {
            let works = self.device.ru_works() || self.device.cu_works();
            let empty = self.device.ends_empty();
            last = self.turn(report);
            taken += 1;
            let ended = empty && self.device.begun().is_none();
            self.note_if(ended && !last.edge && taken < budget, "run goes on behind a Transmit of no bytes");
            wrote.append(&mut self.wrote);
            if !works || last.length != 0 || last.edge {
                self.note_if(!works, "run ends: no work");
                self.note_if(last.length != 0 && last.edge, "run ends: a frame sent, an edge");
                self.note_if(last.length != 0 && !last.edge, "run ends: a frame sent");
                self.note_if(last.length == 0 && last.edge, "run ends: an edge");
                self.note_if(works && taken == budget, "run ends: budget, with a frame sent or an edge");
                self.note_if(taken < budget && taken > 1 && works, "run ends: before its budget");
                self.wrote = wrote;
                return (last, taken);
            }
        }
        self.note_if(budget != 0, "run ends: budget");
        self.wrote = wrote;
        (last, taken)
    }

    // ---- The command unit ----

    /// One turn of the CU; the length sent comes back.
    fn serve_cu(&mut self, report: u16) -> u16 {
        let (block, begun) = match self.device.cu {
            Cu::Active { block, begun: Some(begun) } => (block, begun),
            Cu::Active { block, begun: None } => {
                let begun = self.begin_command(block);
                self.device.cu = Cu::Active { block, begun: Some(begun) };
                return 0;
            }
            _ => return 0,
        };
        match begun.step {
            Send::Buffer { descriptor, used, length } => {
                let step = self.send_buffer(descriptor, used, length);
                self.device.cu = Cu::Active { block, begun: Some(Begun { step, ..begun }) };
                0
            }
            Send::End { failed, length } => self.end_command(block, begun, failed, length, report),
        }
    }

    /// "Begin: read the command word, which holds to the end; write status 4000h."
    fn begin_command(&mut self, block: u16) -> Begun {
        let word = self.word(self.at(block, 2));
        let kind = (word & 7) as u8;
        self.note(&format!("begin of command {kind}"));
        let step = if kind == 4 { self.begin_transmit(block) } else { Send::End { failed: false, length: 0 } };
        self.set_field(self.at(block, 0), 0x4000);
        Begun { kind, el: word & 0x8000 != 0, s: word & 0x4000 != 0, i: word & 0x2000 != 0, suspend: false, step }
    }

    /// "+6, read at begin, offset of a buffer descriptor, FFFFh none". "The header goes to the outgoing area at begin, data behind it." 02:
    /// "with location 1 the whole frame goes through buffers both ways, and the chip inserts no source address."
    fn begin_transmit(&mut self, block: u16) -> Send {
        let descriptor = self.word(self.at(block, 6));
        let length = self.device.header.apart();
        if !self.device.header.in_buffers {
            self.send_header(block);
        }
        if descriptor == NONE {
            self.note(if length == 0 { "Transmit without a descriptor, of no bytes" } else { "Transmit without a descriptor" });
            Send::End { failed: false, length }
        } else {
            Send::Buffer { descriptor, used: 0, length }
        }
    }

    /// "Frame: destination, own address, type, data." 02: "Block and descriptor fields are packed; of the own address the first bytes, up to the
    /// length, count."
    fn send_header(&mut self, block: u16) {
        let header = self.device.header;
        let (destination, kind, length) = (self.at(block, 8), self.at(block, header.type_field()), usize::from(header.address));
        self.note_if(self.runs_over(destination, u16::from(header.address) + TYPE), "Transmit: a header over the end of memory");
        self.note_if(self.runs_over(kind, TYPE), "Transmit: a type over the end of memory");
        for i in 0..length {
            self.outgoing[i] = self.byte(destination + i as u32);
            self.outgoing[length + i] = self.device.own[i];
        }
        for i in 0..usize::from(TYPE) {
            self.outgoing[2 * length + i] = self.byte(kind + i as u32);
        }
        self.wrote.push(Wrote::Outgoing(0, usize::from(header.bytes())));
    }

    /// "Descriptor: +0 15 EOF, 13-0 count; +2 next offset; +4 real address; one buffer turn each." "At a buffer that would pass 2,048
    /// bytes (none of it copied), at a next offset FFFFh before EOF, or with no EOF in 64 descriptors, the end turn is next"
    fn send_buffer(&mut self, descriptor: u16, used: u8, length: u16) -> Send {
        let word = self.word(self.at(descriptor, 0));
        let next = self.word(self.at(descriptor, 2));
        let address = self.real(self.at(descriptor, 4));
        let eof = word & 0x8000 != 0;
        let count = word & 0x3FFF;
        let used = used + 1;
        if usize::from(length + count) > AREA {
            self.note(if eof { "Transmit fails: 2,048 passed, with EOF" } else { "Transmit fails: 2,048 passed" });
            if usize::from(length + count) == AREA + 1 {
                self.note(&format!("Transmit fails: 2,048 passed by one, {}", self.device.header.name()));
            }
            return Send::End { failed: true, length };
        }
        self.note_if(count == 0, "Transmit: count 0");
        self.note_if(count == 0 && usize::from(length) == AREA, "Transmit: count 0 at 2,048");
        self.note_buffer("Transmit", address, count);
        for i in 0..count {
            self.outgoing[usize::from(length + i)] = self.byte(address + u32::from(i));
        }
        self.wrote.push(Wrote::Outgoing(usize::from(length), usize::from(count)));
        let length = length + count;
        if eof {
            self.note_if(used == MOST, "Transmit: EOF in the 64th descriptor");
            self.note_if(next == NONE, "Transmit: EOF and next FFFFh");
            self.note(&format!("Transmit: {}, {}", if used == 1 { "one descriptor" } else { "several descriptors" }, self.device.header.name()));
            self.note_if(length == 0, "Transmit in descriptors, of no bytes");
            Send::End { failed: false, length }
        } else if next == NONE {
            self.note("Transmit fails: FFFFh before EOF");
            Send::End { failed: true, length }
        } else if used == MOST {
            self.note("Transmit fails: no EOF in 64 descriptors");
            Send::End { failed: true, length }
        } else {
            Send::Buffer { descriptor: next, used, length }
        }
    }

    fn runs_over(&self, address: u32, count: u16) -> bool {
        address as usize % self.n + usize::from(count) > self.n
    }

    /// How the bytes that a buffer gives or takes lie at the end of memory.
    fn note_buffer(&self, whose: &str, address: u32, count: u16) {
        let first = address as usize % self.n;
        let behind = first + usize::from(count);
        for (so, how) in [
            (count > 0 && behind == self.n, "that ends at the end of memory"),
            (behind > self.n, "over the end of memory"),
            (behind == self.n + 1, "one byte over the end of memory"),
            (behind > self.n && first == self.n - 1, "that begins at the last byte of memory"),
        ] {
            if so {
                self.note(&format!("{whose}: a buffer {how}"));
            }
        }
    }

    /// "End: do the action, write status; I raises CX; EL makes CU Idle, else S or a waiting SUSPEND makes it Suspended; the link, read
    /// now, is next. EL wins over S."
    fn end_command(&mut self, block: u16, begun: Begun, failed: bool, length: u16, report: u16) -> u16 {
        let (status, sent) = match begun.kind {
            1 => (self.ia_setup(block), 0),
            2 => (self.configure(block), 0),
            3 => (self.mc_setup(block), 0),
            4 => self.transmitted(failed, length, report),
            5 => (self.tdr(block), 0),
            6 => (0x8000, 0),
            _ => (0xA000, 0),
        };
        self.note(&format!("end of command {}, {}", begun.kind, if status & 0x2000 != 0 { "OK" } else { "not OK" }));
        self.set_field(self.at(block, 0), status);
        let link = self.word(self.at(block, 4));
        if begun.i {
            self.note("end with I");
            self.raise(CX);
        }
        let suspend = begun.s || begun.suspend;
        let over = !begun.el && self.meet(self.at(block, 4), self.scb(0));
        self.note_if(over && self.raised != 0, "order: a link lies over the SCB's status");
        self.device.cu = if begun.el {
            self.note("end with EL");
            self.note_if(begun.s, "end with EL and S");
            self.note_if(begun.suspend, "end with EL and a waiting SUSPEND");
            self.raise(CNA);
            Cu::Idle
        } else if suspend {
            self.note_if(begun.s && !begun.suspend, "end with S");
            self.note_if(!begun.s && begun.suspend, "end with a waiting SUSPEND");
            self.note_if(begun.s && begun.suspend, "end with S and a waiting SUSPEND");
            self.raise(CNA);
            Cu::Suspended { next: link }
        } else {
            self.note_if(!begun.i, "end that raises nothing");
            self.note_if(link == 0xFFFF, "a command's link is FFFFh");
            self.note_if(link == block, "a command's link is its own block");
            Cu::Active { block: link, begun: None }
        };
        sent
    }

    /// "IA-Setup: six bytes at +6.", whatever the address length is.
    fn ia_setup(&mut self, block: u16) -> u16 {
        self.note_if(self.runs_over(self.at(block, 6), 6), "IA-Setup: an address over the end of memory");
        self.note(&format!("IA-Setup, length {}", self.device.header.address));
        self.device.own = std::array::from_fn(|i| self.byte(self.at(block, 6 + i as u32)));
        self.device.own_length = self.device.header.address;
        0xA000
    }

    /// "Configure: byte count, low 4 bits of +6, below 4 taken as 4, above 12 as 12; that many bytes are taken from +6 (byte 0), the
    /// others kept." "Byte 3: bits 2-0 address length, 3 address location, 6 and 7 loopback." "status 8000h, nothing changed (ours)". 02: "7 and
    /// loopback still give 8000h."
    fn configure(&mut self, block: u16) -> u16 {
        let byte = |n: u32| self.byte(self.at(block, 6 + n));
        self.note(&format!("Configure of count {}", byte(0) & 15));
        let count = (byte(0) & 15).clamp(4, 12);
        let (byte2, byte3, byte8, byte10) = (byte(2), byte(3), byte(8), byte(10));
        let header = Header { address: byte3 & 7, in_buffers: byte3 & 0x08 != 0 };
        if header.address > LONGEST || byte3 & 0xC0 != 0 {
            self.note_if(byte3 & 0xC7 == 0x07, "Configure fails: length 7");
            self.note_if(byte3 & 0xC0 == 0x40 && header.address <= LONGEST, "Configure fails: loopback, bit 6");
            self.note_if(byte3 & 0xC0 == 0x80 && header.address <= LONGEST, "Configure fails: loopback, bit 7");
            return 0x8000;
        }
        self.note_header(header);
        self.device.header = header;
        self.device.save_bad = byte2 & 0x80 != 0;
        if count > 8 {
            self.device.promiscuous = byte8 & 1 != 0;
            self.device.no_broadcast = byte8 & 2 != 0;
        }
        if count > 10 {
            self.device.minimum = byte10;
        }
        let held = self.device.held();
        self.note_if(held.map_or(false, |held| held.save_bad != self.device.save_bad), "Configure alters save-bad under a held frame");
        0xA000
    }

    /// What another length meets in the settings.
    fn note_header(&self, header: Header) {
        let device = &self.device;
        let (before, listed) = (device.header, device.filter != 0);
        self.note(&format!("Configure: {}", header.name()));
        self.note_if(header.address < before.address && listed, "Configure: a shorter length, the filter is not empty");
        self.note_if(header.address > before.address && listed, "Configure: a greater length, the filter is not empty");
        if let Some(held) = device.held() {
            self.note_held(header, held);
        }
    }

    /// What another length or location meets in a held frame.
    fn note_held(&self, header: Header, held: Held) {
        let phase = match held.begun.map(|begun| begun.step) {
            None => "not begun",
            Some(Store::Buffer { .. }) => "at its buffers",
            Some(Store::End { .. }) => "at its end",
        };
        self.note_if(header.address < held.header.address, &format!("Configure: a length below that of a held frame, {phase}"));
        self.note_if(header.address > held.header.address, &format!("Configure: a length above that of a held frame, {phase}"));
        self.note_if(header.in_buffers && !held.header.in_buffers, &format!("Configure: location 1 under a held frame of 0, {phase}"));
        self.note_if(!header.in_buffers && held.header.in_buffers, &format!("Configure: location 0 under a held frame of 1, {phase}"));
    }

    /// "MC-Setup: low 14 bits at +6 count bytes, addresses from +8, a remainder ignored." 02: "the limit of 16 and the 8000h answer of
    /// MC-Setup go; any count works, a count of 0 empties the filter." "MC-Setup's addresses have that length; at 0 it empties the filter". The
    /// list is read before the status is written ("do the action, write status"): in a list that comes round to its own block the status is
    /// 4000h.
    fn mc_setup(&mut self, block: u16) -> u16 {
        let word = self.word(self.at(block, 6));
        let length = self.device.header.address;
        let count = u32::from((word & 0x3FFF).checked_div(length.into()).unwrap_or(0));
        let addresses = self.listed(block, count);
        let filter = fold(&addresses);
        let before = std::mem::replace(&mut self.device.filter, filter);
        let groups: Vec<Vec<u8>> = addresses.iter().filter(|address| address[0] & 1 != 0).cloned().collect();
        self.device.listed = Listed { groups: fold(&groups), late: self.late(block, count, filter), before, addresses, length };
        self.note_setup(block, word, before);
        0xA000
    }

    /// So many addresses from +8 on, packed.
    fn listed(&self, block: u16, count: u32) -> Vec<Vec<u8>> {
        let length = u32::from(self.device.header.address);
        (0..count).map(|i| (0..length).map(|j| self.byte(self.at(block, 8 + length * i + j))).collect()).collect()
    }

    /// The filter, had the list been read behind the status.
    fn late(&mut self, block: u16, count: u32, filter: u64) -> u64 {
        if !self.reaches(self.at(block, 8), u32::from(self.device.header.address) * count, self.at(block, 0)) {
            return filter;
        }
        let indices = [self.at(block, 0) as usize % self.n, self.at(block, 1) as usize % self.n];
        let there = indices.map(|index| self.memory[index]);
        (self.memory[indices[0]], self.memory[indices[1]]) = (0x00, 0xA0);
        let late = fold(&self.listed(block, count));
        (self.memory[indices[0]], self.memory[indices[1]]) = (there[0], there[1]);
        late
    }

    fn note_setup(&self, block: u16, word: u16, before: u64) {
        let (bytes, device) = (word & 0x3FFF, &self.device);
        let address = u16::from(device.header.address);
        let count = bytes.checked_div(address).unwrap_or(0);
        let length = count * address;
        self.note_if(address > 1 && length != bytes, "MC-Setup with a remainder");
        self.note_if(word & 0xC000 != 0, "MC-Setup with bits above the count");
        self.note(self.setup_name(bytes, count));
        if count > 0 {
            self.note(&format!("MC-Setup of addresses, length {address}"));
        }
        let list = self.at(block, 8);
        self.note_if(self.runs_over(list, length), "MC-Setup: a list over the end of memory");
        self.note_if(usize::from(length) > self.n, "MC-Setup: a list more than once around memory");
        self.note_if(self.reaches(list, length.into(), self.at(block, 0)), "MC-Setup: a list over its own status");
        self.note_if(device.listed.late != device.filter, "order: MC-Setup's own status in its list");
        self.note_if(before != 0 && device.filter == 0, "MC-Setup empties the filter");
        self.note_if(before != 0 && address == 0 && bytes != 0, "MC-Setup empties the filter by length 0 alone");
        self.note_if(before & !device.filter != 0 && device.filter != 0, "MC-Setup clears bits and sets others");
        self.note_if(device.filter == u64::MAX, "MC-Setup sets all bits");
        self.note_if(device.listed.groups != device.filter, "MC-Setup: a bit by an address without its low bit alone");
    }

    /// What an MC-Setup is called by how many it lists.
    fn setup_name(&self, bytes: u16, count: u16) -> &'static str {
        let address = u16::from(self.device.header.address);
        match count {
            0 if bytes == 0 => "MC-Setup of count 0",
            0 if address == 0 => "MC-Setup of length 0",
            0 => "MC-Setup of less than an address",
            1 => "MC-Setup of 1 address",
            2..=16 => "MC-Setup of 2 to 16",
            17 => "MC-Setup of 17",
            30 => "MC-Setup of 30",
            _ if (count + 1) * address > 0x3FFF => "MC-Setup of as many as there can be",
            _ => "MC-Setup of others above 17",
        }
    }

    /// "8100h, nothing sent (ours). Otherwise bits 10, 9, 7, 6, 5, 3-0 of the line report given with the end turn are set with C; OK, and
    /// the frame sent, exactly if 10, 9, 5 are clear."
    fn transmitted(&mut self, failed: bool, length: u16, report: u16) -> (u16, u16) {
        if failed {
            self.note_if(report != 0, "Transmit failed, with a report");
            return (0x8100, 0);
        }
        for bit in 0..16 {
            self.note_if(report >> bit & 1 != 0, &format!("report with bit {bit}"));
            self.note_if(report == 1 << bit, &format!("report of bit {bit} alone"));
        }
        let status = 0x8000 | report & 0x06EF;
        if report & 0x0620 != 0 {
            self.note("Transmit: not sent");
            return (status, 0);
        }
        self.note(if report == 0 { "Transmit: sent" } else { "Transmit: sent, with a report" });
        self.note_sent(length);
        (status | 0x2000, length)
    }

    fn note_sent(&self, length: u16) {
        let name = self.device.header.name();
        self.note(&match usize::from(length) {
            0 => "Transmit: no bytes, OK".to_string(),
            AREA => format!("Transmit: 2,048 bytes sent, {name}"),
            _ if length == self.device.header.apart() => format!("Transmit: a header alone sent, {name}"),
            _ => format!("Transmit: others sent, {name}"),
        });
    }

    /// "TDR: word +6 becomes 8000h, status A000h."
    fn tdr(&mut self, block: u16) -> u16 {
        self.set_field(self.at(block, 6), 0x8000);
        0xA000
    }

    // ---- Arrival ----

    /// `length` is the frame's; of one of more than 2,048 bytes the beginning will do.
    pub fn arrival(&mut self, frame: &[u8], length: u64, verdict: u32) -> Answer {
        self.wrote.clear();
        if let Some(answer) = self.refused("arrival", length) {
            let dropped = matches!(self.fate(frame, verdict), Fate::Dropped { .. });
            self.note_if(dropped, &format!("refusal {} of a frame that would be dropped", answer.number));
            return answer;
        }
        self.raised = 0;
        let fate = self.fate(frame, verdict);
        self.note_arrival(frame, verdict, fate);
        let (why, counter) = match fate {
            Fate::Dropped { why, counter } => (Some(why), counter),
            Fate::Lost { counter } => (None, Some(counter)),
            Fate::Held { held, counter } => {
                self.hold(frame, held);
                (None, counter)
            }
        };
        if let Some(field) = counter {
            self.count(field);
        }
        Answer { why, ..Answer::done(0, false) }
    }

    /// "In order: under 14 bytes, dropped. No match, dropped. RU Idle or Suspended, dropped. A frame already held: OVRNERRS. Short (bytes
    /// plus 4 below the minimum): bad, no counter whatever the verdict. Misaligned verdict: bad, ALNERRS. CRC verdict: bad, CRCERRS. Any
    /// other of 14 bytes or more is good. A bad frame is held only in Ready with save-bad set; a good one is held in Ready, else RSCERRS."
    /// 02: "Each reason is given exactly when document 01's order reaches it." "Document 01's 14-byte tests read "shorter than the header", and
    /// the header is still compared with location 1."
    fn fate(&self, frame: &[u8], verdict: u32) -> Fate {
        let dropped = |why| Fate::Dropped { why, counter: None };
        let header = self.device.header;
        if frame.len() < usize::from(header.bytes()) {
            return dropped(Reason::TooFew);
        }
        if !self.matches(self.destination(frame)) {
            return dropped(Reason::NoMatch);
        }
        let ready = match self.device.ru {
            Ru::Idle => return dropped(Reason::Idle),
            Ru::Suspended { .. } => return dropped(Reason::Suspended),
            Ru::Ready { held: Some(_), .. } => return Fate::Lost { counter: OVRNERRS },
            Ru::Ready { held: None, .. } => true,
            Ru::NoResources => false,
        };
        let (short, verdict, save_bad) = (self.short(frame), Verdict::of(verdict), self.device.save_bad);
        let counter = match verdict {
            _ if short => None,
            Verdict::Good => None,
            Verdict::Crc => Some(CRCERRS),
            Verdict::Misaligned => Some(ALNERRS),
        };
        let good = !short && verdict == Verdict::Good;
        if ready && (good || save_bad) {
            Fate::Held { held: Held { length: frame.len() as u16, verdict, short, save_bad, header, begun: None }, counter }
        } else if good {
            Fate::Lost { counter: RSCERRS }
        } else {
            Fate::Dropped { why: Reason::Bad, counter }
        }
    }

    fn short(&self, frame: &[u8]) -> bool {
        frame.len() + 4 < usize::from(self.device.minimum)
    }

    fn hold(&mut self, frame: &[u8], held: Held) {
        if let Ru::Ready { held: place, .. } = &mut self.device.ru {
            *place = Some(held);
        }
        self.holding[..frame.len()].copy_from_slice(frame);
        self.wrote.push(Wrote::Holding(0, frame.len()));
    }

    /// A frame's destination, or what there is of it.
    fn destination<'a>(&self, frame: &'a [u8]) -> &'a [u8] {
        &frame[..frame.len().min(self.device.header.address.into())]
    }

    /// "Match: promiscuous; or all FFh with broadcast enabled; or not all FFh and either own address or, with the low bit of the first
    /// byte set, a listed address." 02: "Broadcast, own address and promiscuous mode keep their rules."
    fn matches(&self, to: &[u8]) -> bool {
        self.device.promiscuous || self.passes(to)
    }

    /// The match without promiscuous mode. 02, of length 0: "only promiscuous mode receives".
    fn passes(&self, to: &[u8]) -> bool {
        if to.is_empty() {
            false
        } else if all_ones(to) {
            !self.device.no_broadcast
        } else {
            to == self.device.own_address() || to[0] & 1 != 0 && self.bit_set(to)
        }
    }

    /// 02: "a multicast frame passes when its bit is set, listed or not"
    fn bit_set(&self, to: &[u8]) -> bool {
        self.device.filter >> hash(to) & 1 != 0
    }

    fn note_arrival(&self, frame: &[u8], verdict: u32, fate: Fate) {
        let header = usize::from(self.device.header.bytes());
        self.note(&format!("arrival of verdict {}", verdict.min(3)));
        for special in [0, 1, 2048] {
            self.note_if(frame.len() == special, &format!("arrival of {special} bytes"));
        }
        if frame.len() >= header {
            self.note_match(self.destination(frame), frame);
        }
        for (length, how) in [(header - 1, "one byte below its header"), (header, "its header alone"), (header + 1, "one byte above its header")] {
            if frame.len() == length && self.takes(frame, verdict) {
                self.note(&format!("arrival of {how}, {}", self.device.header.name()));
            }
        }
        self.note_fate(frame, Verdict::of(verdict), fate);
    }

    /// All but the header's length lets the frame in.
    fn takes(&self, frame: &[u8], verdict: u32) -> bool {
        let good = !self.short(frame) && Verdict::of(verdict) == Verdict::Good;
        let ready = matches!(self.device.ru, Ru::Ready { held: None, .. });
        ready && (good || self.device.save_bad) && self.matches(self.destination(frame))
    }

    fn note_match(&self, to: &[u8], frame: &[u8]) {
        let (all, own, group) = (all_ones(to), to == self.device.own_address(), to.first().map_or(false, |first| first & 1 != 0));
        if to.is_empty() {
            return self.note_empty();
        }
        let (listed, set) = (self.device.listed.addresses.iter().any(|one| one == to), self.bit_set(to));
        if self.device.promiscuous {
            self.note_if(!self.passes(to), "match: promiscuous alone");
        } else if self.passes(to) {
            self.note(match (all, own) {
                (true, _) => "match: broadcast",
                (false, true) => if group { "match: own, a group's" } else { "match: own" },
                (false, false) if listed => "match: a listed group",
                (false, false) => "match: a group not listed, by a bit of another's",
            });
        } else {
            self.note(match (all, group) {
                (true, _) if own => "dropped: broadcast disabled, own all FFh",
                (true, _) if listed => "dropped: broadcast disabled, listed",
                (true, _) if set => "dropped: broadcast disabled, its bit set",
                (true, _) => "dropped: broadcast disabled",
                (false, true) if self.device.filter == 0 => "dropped: a group, the filter is empty",
                (false, true) => "dropped: a group whose bit is clear",
                (false, false) if listed => "dropped: listed without its low bit",
                (false, false) if set => "dropped: another's, its bit set",
                (false, false) => "dropped: another's",
            });
        }
        if !self.device.promiscuous {
            self.note_by_length(to, frame);
            if group && !all && !own {
                self.note_group(hash(to), set);
            }
        }
    }

    /// With length 0 everything would match that is asked for all of its bytes.
    fn note_empty(&self) {
        let device = &self.device;
        if device.promiscuous {
            return self.note("match: promiscuous alone, length 0");
        }
        self.note_if(!device.no_broadcast, "dropped: length 0, broadcast enabled");
        self.note_if(device.no_broadcast, "dropped: length 0, broadcast disabled");
        self.note_if(device.filter != 0, "dropped: length 0, the filter is not empty");
    }

    /// What a frame that is judged by its address meets at this address length, and which bytes behind the address tell another length.
    fn note_by_length(&self, to: &[u8], frame: &[u8]) {
        let device = &self.device;
        let (passes, all, own) = (self.passes(to), all_ones(to), device.own_address());
        let kind = match (passes, all, to == own) {
            (true, true, _) => "match: broadcast",
            (true, false, true) => "match: own",
            (true, false, false) => "match: by its bit",
            (false, true, _) => "dropped: broadcast disabled",
            (false, false, _) if to[0] & 1 != 0 => "dropped: a group",
            (false, false, _) => "dropped: another's",
        };
        self.note(&format!("{kind}, length {}", to.len()));
        let whole = &frame[..frame.len().min(LONGEST.into())];
        let differs = whole.len() == device.own.len() && to.len() < whole.len();
        self.note_if(differs && kind == "match: own" && whole != device.own, "match: own, by its first bytes alone");
        self.note_if(differs && kind == "match: broadcast" && !all_ones(whole), "match: broadcast, by its first bytes alone");
        self.note_if(kind == "match: own" && device.own_length < device.header.address, "match: own, set under a shorter length");
        let last = to.len() - 1;
        let nearly = !passes && to[..last] == own[..last] && last > 0;
        self.note_if(nearly, &format!("dropped: own but for its last byte, length {}", to.len()));
    }

    /// A group that only its bit decides.
    fn note_group(&self, bit: u8, set: bool) {
        let by = |filter: u64| filter >> bit & 1 != 0;
        let Listed { groups, late, before, length, .. } = self.device.listed;
        self.note(&format!("bit {bit} {}", if set { "passes a group" } else { "drops a group" }));
        self.note_if(set && !by(groups), "match: by the bit of addresses without their low bit");
        self.note_if(set && length != self.device.header.address, "match: by a bit set under another length");
        self.note_if(!set && by(before), "dropped: by a bit that the list before had set");
        self.note_if(!set && by(before) && length == 0, "dropped: by a bit that MC-Setup at length 0 has cleared");
        self.note_if(by(late) != set, "order: a group by MC-Setup's own status in its list");
    }

    fn note_fate(&self, frame: &[u8], verdict: Verdict, fate: Fate) {
        let short = self.short(frame);
        let kind = format!("{}{verdict:?}", if short { "short " } else { "" });
        let bad = short || verdict != Verdict::Good;
        let save_bad = if self.device.save_bad { "save-bad set" } else { "save-bad clear" };
        match fate {
            Fate::Held { .. } => self.note(&format!("held: {kind}")),
            Fate::Lost { counter: OVRNERRS } => {
                self.note(&format!("overrun: {kind}"));
                self.note_if(bad, &format!("overrun: bad, {save_bad}"));
                return;
            }
            Fate::Lost { .. } => self.note(&format!("lost in No Resources, {save_bad}")),
            Fate::Dropped { why, .. } => {
                self.note_reason(frame, why, bad);
                match self.device.ru {
                    _ if why != Reason::Bad => return,
                    Ru::NoResources => self.note(&format!("dropped in No Resources, {save_bad}: {kind}")),
                    _ => self.note(&format!("dropped in Ready: {kind}")),
                }
            }
        }
        let minimum = usize::from(self.device.minimum);
        self.note_if(frame.len() + 5 == minimum, "arrival one byte below the minimum");
        self.note_if(frame.len() + 4 == minimum, "arrival of just the minimum");
    }

    /// A reason, and what else was so that comes later in the order.
    fn note_reason(&self, frame: &[u8], why: Reason, bad: bool) {
        let name = why.name();
        let state = match self.device.ru {
            _ if self.device.scb.is_none() => "before the first attention",
            Ru::Ready { held: Some(_), .. } => "over a held frame",
            _ => self.device.ru_name(),
        };
        self.note(&format!("reason: {name}"));
        self.note_if(state != name, &format!("reason: {name}, {state}"));
        self.note_if(bad && why != Reason::Bad, &format!("reason: {name}, bad too"));
        // Of a whole address a match could be asked.
        if frame.len() >= usize::from(self.device.header.address) {
            let to = self.destination(frame);
            self.note_if(why == Reason::TooFew && !self.matches(to), "reason: too few bytes, no match too");
            self.note_if(self.device.promiscuous && !self.passes(to), &format!("reason: {name}, promiscuous alone"));
        }
    }

    /// "Counters are read from the SCB, increased modulo 65,536, written back."
    fn count(&mut self, field: u32) {
        let value = self.word(self.scb(field));
        self.note(&format!("counter +{field}"));
        self.note_if(value == 0xFFFF, &format!("counter +{field} from FFFFh to 0"));
        self.set_word(self.scb(field), value.wrapping_add(1));
    }

    // ---- The receive unit ----

    fn serve_ru(&mut self) {
        let (descriptor, suspend, held) = match self.device.ru {
            Ru::Ready { descriptor, suspend, held: Some(held) } => (descriptor, suspend, held),
            _ => return,
        };
        let begun = match held.begun {
            None => self.begin_frame(descriptor, held),
            Some(storing) => match storing.step {
                Store::Buffer { descriptor, used, stored } => {
                    let step = self.store_buffer(descriptor, used, stored, held);
                    Storing { step, ..storing }
                }
                Store::End { out, free, last_el } => {
                    self.end_frame(descriptor, suspend, held, storing, out, free, last_el);
                    return;
                }
            },
        };
        self.device.ru = Ru::Ready { descriptor, suspend, held: Some(Held { begun: Some(begun), ..held }) };
    }

    /// "Begin: read +2 and +6, write 4000h." "Data left ... at FFFFh: out of buffers."
    fn begin_frame(&mut self, descriptor: u16, held: Held) -> Storing {
        let word = self.word(self.at(descriptor, 2));
        let first = self.word(self.at(descriptor, 6));
        self.set_field(self.at(descriptor, 0), 0x4000);
        let step = if held.data() == 0 {
            self.note(&format!("frame: no data, length {}", held.header.address));
            Store::End { out: false, free: first, last_el: false }
        } else if first == NONE {
            self.note("out of buffers: first FFFFh");
            Store::End { out: true, free: first, last_el: false }
        } else {
            Store::Buffer { descriptor: first, used: 0, stored: 0 }
        };
        Storing { el: word & 0x8000 != 0, s: word & 0x4000 != 0, step }
    }

    /// "Each buffer turn reads one descriptor whole, fills its buffer (size 0 too), then writes F, count, and EOF if the data ends there.
    /// Data left after EL, after 64, or at FFFFh: out of buffers." The data stands behind the header, or with location 1 from the first byte on.
    fn store_buffer(&mut self, descriptor: u16, used: u8, stored: u16, held: Held) -> Store {
        let next = self.word(self.at(descriptor, 2));
        let address = self.real(self.at(descriptor, 4));
        let word = self.word(self.at(descriptor, 8));
        let el = word & 0x8000 != 0;
        let left = held.data() - stored;
        let count = left.min(word & 0x3FFF);
        let used = used + 1;
        self.note_if(word & 0x3FFF == 0, "frame: a buffer of size 0");
        self.note_buffer("frame", address, count);
        self.note_if(count > 0 && self.over_scb(address, u32::from(count)), "frame: a buffer over the SCB");
        for i in 0..count {
            self.set_byte(address + u32::from(i), self.holding[usize::from(held.header.apart() + stored + i)]);
        }
        let over = self.word(self.at(descriptor, 2)) != next || self.word(self.at(descriptor, 8)) != word;
        self.note_if(over, "order: a buffer lies over its own descriptor");
        let ends = count == left;
        self.set_field(self.at(descriptor, 0), 0x4000 | count | if ends { 0x8000 } else { 0 });
        if ends {
            self.note_if(el, "frame: data ends in the EL buffer");
            self.note_if(used == MOST, "frame: data ends in the 64th buffer");
            self.note_if(next == NONE, "frame: data ends, next FFFFh");
            self.note_if(count == word & 0x3FFF, "frame: data fills its last buffer");
            self.note(&format!("frame: {}, {}", if used == 1 { "one buffer" } else { "several buffers" }, held.header.name()));
            Store::End { out: false, free: next, last_el: el }
        } else if el || used == MOST || next == NONE {
            self.note(match (el, used == MOST) {
                (true, _) => "out of buffers: after EL",
                (false, true) => "out of buffers: after 64",
                (false, false) => "out of buffers: next FFFFh",
            });
            Store::End { out: true, free: next, last_el: el }
        } else {
            Store::Buffer { descriptor: next, used, stored: stored + count }
        }
    }

    /// "End, if stored: fourteen header bytes, status, FFFFh at +6 if no data; raise FR." They are as many as the frame's own length has, and
    /// none with location 1. "Out of buffers: kept with bit 9 if save-bad was set at arrival; else status 0000h, no FR. Either way RSCERRS
    /// follows if otherwise good, and No Resources. Descriptor EL, or EL on the last buffer used, also gives No Resources, which wins over
    /// Suspended. Otherwise +6 of the next frame descriptor (link read now) gets the next free offset (with no data, the +6 read at begin), and
    /// S or a waiting SUSPEND suspends."
    #[allow(clippy::too_many_arguments)]
    fn end_frame(&mut self, descriptor: u16, suspend: bool, held: Held, storing: Storing, out: bool, free: u16, last_el: bool) {
        let header = held.header.apart();
        self.note_if(held.save_bad != self.device.save_bad, "frame ends under another save-bad than at arrival");
        if !out || held.save_bad {
            self.note_stored(held);
            self.note_if(self.runs_over(self.at(descriptor, 8), header), "frame: a header over the end of memory");
            for i in 0..header {
                self.set_byte(self.at(descriptor, 8 + u32::from(i)), self.holding[usize::from(i)]);
            }
            let status = self.frame_status(held, out);
            self.note(&format!("stored {status:04X}"));
            self.set_field(self.at(descriptor, 0), status);
            if held.data() == 0 {
                self.set_field(self.at(descriptor, 6), NONE);
            }
            self.raise(FR);
        } else {
            self.note("not kept");
            self.set_field(self.at(descriptor, 0), 0x0000);
        }
        if out && !held.short && held.verdict == Verdict::Good {
            let from = (self.scb(RSCERRS) + (self.n as u32) - self.at(descriptor, 0) % self.n as u32) % self.n as u32;
            self.note_if(from == 0 || held.save_bad && from < 8 + u32::from(header), "order: RSCERRS lies in the frame descriptor");
            self.count(RSCERRS);
        }
        self.device.ru = if out || storing.el || last_el {
            self.note(match (out, storing.el, last_el) {
                (true, ..) => "frame's end: No Resources, out of buffers",
                (_, true, true) => "frame's end: No Resources, both EL",
                (_, true, false) => "frame's end: No Resources, descriptor's EL",
                _ => "frame's end: No Resources, buffer's EL",
            });
            self.note_if(storing.s, "frame's end: No Resources over S");
            self.note_if(suspend, "frame's end: No Resources over a waiting SUSPEND");
            self.raise(RNR);
            Ru::NoResources
        } else {
            let link = self.word(self.at(descriptor, 4));
            self.note_if(link == 0xFFFF, "a frame descriptor's link is FFFFh");
            self.note_if(link == descriptor, "a frame descriptor's link is its own");
            self.note_if(self.meet(self.at(link, 6), self.scb(0)), "order: the next descriptor's +6 lies over the SCB's status");
            self.note_if(self.meet(self.at(link, 6), self.at(descriptor, 0)), "order: the next descriptor's +6 lies over the status");
            self.set_field(self.at(link, 6), free);
            if storing.s || suspend {
                self.note(match (storing.s, suspend) {
                    (true, true) => "frame's end: Suspended by S and a waiting SUSPEND",
                    (true, false) => "frame's end: Suspended by S",
                    _ => "frame's end: Suspended by a waiting SUSPEND",
                });
                self.raise(RNR);
                Ru::Suspended { next: link }
            } else {
                self.note("frame's end: Ready");
                self.ready(link)
            }
        };
    }

    /// What is stored by other settings than those of the moment.
    fn note_stored(&self, held: Held) {
        let (now, then) = (self.device.header, held.header);
        let name = then.name();
        self.note_if(held.length as usize == AREA, &format!("frame: 2,048 bytes stored, {name}"));
        self.note_if(now.address != then.address, &format!("frame ends under another length, {name}"));
        self.note_if(now.in_buffers != then.in_buffers, &format!("frame ends under another location, {name}"));
    }

    /// "+0 status (C, B, OK; 11 CRC, 10 alignment, 9 out of buffers, 7 short)". "All bits that apply are set, 10 excluding 11. OK only with
    /// no error bit."
    fn frame_status(&self, held: Held, out: bool) -> u16 {
        let mut errors = 0;
        match held.verdict {
            Verdict::Good => {}
            Verdict::Crc => errors |= 0x0800,
            Verdict::Misaligned => errors |= 0x0400,
        }
        if out {
            errors |= 0x0200;
        }
        if held.short {
            errors |= 0x0080;
        }
        if errors == 0 { 0xA000 } else { 0x8000 | errors }
    }
}

/// "all FFh", of any length.
fn all_ones(address: &[u8]) -> bool {
    address.iter().all(|byte| *byte == 0xFF)
}

// ---- The fold ----

/// Document 000, section 5.5, table 5-5: the flags of the CRC register that take the feedback as they are shifted, in CRC-32.
const FED: [usize; 13] = [26, 23, 22, 16, 12, 11, 10, 8, 7, 5, 4, 2, 1];

/// The flags that make the value, the lowest bit first.
const TAKEN: [usize; 6] = [5, 6, 7, 2, 3, 4];

/// The function HASH there, for CRC-32 and any address length: FB, A and Y are its names. Its vector begins with the low bit of the byte that
/// is sent first: that bit it calls the multicast bit.
pub fn hash(address: &[u8]) -> u8 {
    let mut a = [true; 32];
    for byte in address {
        for bit in 0..8 {
            let fb = a[31] != (byte >> bit & 1 != 0);
            a.copy_within(..31, 1);
            a[0] = fb;
            for flag in FED {
                a[flag] = a[flag] != fb;
            }
        }
    }
    (0..).zip(TAKEN).fold(0, |y, (power, flag)| if a[flag] { y + (1 << power) } else { y })
}

/// 02: "it folds each address through the CRC into a 64-bit filter", whatever the address's low bit is.
fn fold(addresses: &[Vec<u8>]) -> u64 {
    addresses.iter().fold(0, |filter, address| filter | 1 << hash(address))
}
