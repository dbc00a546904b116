//! The model's own tests: document 01's cases at the edges, what its points come to in small cases, and the list's forms.
//! Each case is a function that ends with the first thing that is not so.

use crate::chip::{hash, Answer, Chip, Header, Reason, Ru, AREA, NONE};
use crate::list;
use std::io::{self, Write};

type Case = fn() -> Result<(), String>;

macro_rules! same {
    ($left:expr, $right:expr) => {{
        let (left, right) = ($left, $right);
        if left != right {
            return Err(format!("line {}: {} is {:X?}, not {:X?}", line!(), stringify!($left), left, right));
        }
    }};
}

macro_rules! cases {
    ($($name:ident)*) => { &[$((stringify!($name), $name as Case)),*] };
}

const CASES: &[(&str, Case)] = cases! {
    p1_initialised p2_one_nop p3_three_buffers p4_one_buffer p5_short p6_counter_wraps p7_reports p8_descriptor_el
    sixty_four_descriptors data_2034_passes_2035_not
    refusals refusal_numbers sizes size_altered status_not_read_from_memory holding_only_by_held altered_holding altered_outgoing
    offset_beyond_65536 word_over_the_end real_addresses scp_place ffff_links
    sent_at_the_end stored_at_the_end transmit_header_at_the_end frame_header_at_the_end ia_setup_at_the_end
    init_order init_obeys_nothing init_before init_again
    attention_cu_before_ru attention_ru_after_cu attention_ack_first attention_status_last attention_resets attention_reserved
    start_when_active resume_when_waiting suspend_cu suspend_ru waiting_forgotten aborts_off abort_kinds abort_ru resume_takes_old_link
    waiting_of_each_unit started_writes_nothing
    plain_end_writes_no_status events_again edges_of_attention cx_only_by_i
    alternation turn_counts_sending turn_counts_storing report_only_at_transmit_end
    run_refused run_of_nothing run_to_its_budget run_to_no_work run_to_a_frame run_to_an_edge run_stores run_as_turns
    begin_keeps link_before_status link_ffff failures_end_normally el_wins
    ia_setup configure_bytes configure_counts configure_rejects
    hash_values hash_shared hash_of_short_addresses mc_setup mc_setup_replaces mc_setup_at_the_end mc_setup_around
    transmit_tests transmit_next_kept reports tdr_dump_diagnose
    arrival_order arrival_minimum match_rules match_by_the_bit settings_at_arrival
    reason_by_the_order reason_by_the_match reason_beside_a_counter reason_told_once
    storing_reads_whole storing_size_zero storing_exact_ends storing_no_data storing_status_bits storing_not_kept storing_rscerrs_follows
    storing_suspends storing_status_last storing_descriptor_kept
    header_sent_packed header_sent header_limits header_no_bytes header_no_bytes_in_a_run
    header_stored header_too_few header_no_data header_held_through_configure
    header_own header_broadcast header_groups header_length_0 header_kept header_minimum header_reset
    list_example list_forms list_reasons list_bad_input
};

pub fn run(out: &mut dyn Write) -> io::Result<bool> {
    let mut passed = 0;
    for (name, case) in CASES {
        match case() {
            Ok(()) => passed += 1,
            Err(why) => {
                writeln!(out, "{name}: {why}")?;
                out.flush()?;
                return Ok(false);
            }
        }
    }
    writeln!(out, "{passed} passed")?;
    out.flush()?;
    Ok(true)
}

// ---- What the cases are made with ----

const SCB: usize = 0x0100;
const QUIET: Answer = Answer { number: 0, length: 0, edge: false, why: None };
const EDGE: Answer = Answer { edge: true, ..QUIET };

fn refusal(number: u8) -> Answer {
    Answer { number, ..QUIET }
}

fn dropped(why: Reason) -> Answer {
    Answer { why: Some(why), ..QUIET }
}

struct Rig {
    chip: Chip,
}

impl Rig {
    /// After reset, ISCP at 0040h, the SCB where it is said.
    fn at(n: usize, base: u32, offset: u16) -> Rig {
        let mut rig = Rig { chip: Chip::new(n) };
        rig.words(n - 4, &[0x0040, 0]);
        rig.words(0x40, &[1, offset, base as u16, (base >> 16) as u16]);
        rig.chip.reset();
        rig
    }

    /// Initialised, the SCB at 0100h, base 0, all acknowledged.
    fn new() -> Rig {
        let mut rig = Rig::at(8192, 0, SCB as u16);
        rig.chip.attention();
        rig.command(0xF000);
        rig
    }

    /// The same, with the RU Ready at a descriptor at 0300h.
    fn ready() -> Rig {
        let mut rig = Rig::new();
        rig.words(SCB + 6, &[0x0300]);
        rig.command(0x0010);
        rig
    }

    /// The same, with save-bad set and a minimum.
    fn saving(minimum: u8) -> Rig {
        let mut rig = Rig::new();
        rig.configure(&[12, 0, 0x80, 6, 0, 0, 0, 0, 0, 0, minimum]);
        rig.words(SCB + 6, &[0x0300]);
        rig.command(0xF010);
        rig
    }

    /// Runs one Configure at 0F00h to its end, alone.
    fn configure(&mut self, bytes: &[u8]) -> u16 {
        self.one(0x0F00, 2, bytes)
    }

    /// Runs one command with EL to its end; its status comes back.
    fn one(&mut self, block: usize, kind: u16, parameters: &[u8]) -> u16 {
        self.words(block, &[0, 0x8000 | kind, 0]);
        self.bytes(block + 6, parameters);
        self.words(SCB + 4, &[block as u16]);
        self.command(0x0100);
        while self.chip.device.cu_works() {
            self.chip.turn(0);
        }
        self.command(0xF000);
        self.word(block)
    }

    fn bytes(&mut self, at: usize, bytes: &[u8]) {
        self.chip.memory[at..at + bytes.len()].copy_from_slice(bytes);
    }

    fn words(&mut self, at: usize, words: &[u16]) {
        for (i, word) in words.iter().enumerate() {
            self.bytes(at + 2 * i, &word.to_le_bytes());
        }
    }

    fn word(&self, at: usize) -> u16 {
        u16::from_le_bytes([self.chip.memory[at], self.chip.memory[at + 1]])
    }

    fn scb(&self) -> u16 {
        self.word(SCB)
    }

    fn command(&mut self, word: u16) -> Answer {
        self.words(SCB + 2, &[word]);
        self.chip.attention()
    }

    fn start(&mut self, block: u16) {
        self.words(SCB + 4, &[block]);
        self.command(0x0100);
    }

    fn turns(&mut self, count: usize) -> Answer {
        let mut last = QUIET;
        for _ in 0..count {
            last = self.chip.turn(0);
        }
        last
    }

    /// Turns until nothing is left to do.
    fn rest(&mut self) -> usize {
        let mut count = 0;
        while self.chip.device.cu_works() || self.chip.device.ru_works() {
            self.chip.turn(0);
            count += 1;
        }
        count
    }

    fn fd(&mut self, at: usize, bits: u16, link: u16, first: u16) {
        self.words(at, &[0, bits, link, first]);
    }

    fn rbd(&mut self, at: usize, next: u16, buffer: u16, size: u16) {
        self.words(at, &[0, next, buffer, 0, size]);
    }

    fn tbd(&mut self, at: usize, word: u16, next: u16, buffer: u16) {
        self.words(at, &[word, next, buffer, 0]);
    }

    fn transmit(&mut self, at: usize, bits: u16, first: u16) {
        self.words(at, &[0, bits | 4, 0x0200, first, 0x0102, 0x0304, 0x0506, 0x0008]);
    }

    fn hear(&mut self, frame: &[u8], verdict: u32) -> Answer {
        self.chip.arrival(frame, frame.len() as u64, verdict)
    }

    fn held(&self) -> bool {
        self.chip.device.ru_works()
    }
}

/// A broadcast frame of so many data bytes, counting up from 80h.
fn frame(data: usize) -> Vec<u8> {
    let mut frame = vec![0xFF; 6];
    frame.extend([2, 3, 4, 5, 6, 7, 8, 0]);
    frame.extend((0..data).map(|i| (0x80 + i) as u8));
    frame
}

// ---- Cases at the edges ----

fn p1_initialised() -> Result<(), String> {
    let mut rig = Rig::at(8192, 0, SCB as u16);
    same!(rig.chip.attention(), EDGE);
    same!(rig.scb(), 0xA000);
    same!(rig.word(SCB + 2), 0);
    same!(rig.word(0x40), 0);
    Ok(())
}

fn p2_one_nop() -> Result<(), String> {
    let mut rig = Rig::at(8192, 0, SCB as u16);
    rig.chip.attention();
    rig.words(0x200, &[0, 0xA000, 0]);
    rig.words(SCB + 4, &[0x200]);
    same!(rig.command(0xA100), QUIET);
    same!(rig.scb(), 0x0200);
    same!(rig.turns(1), QUIET);
    same!(rig.word(0x200), 0x4000);
    same!(rig.turns(1), EDGE);
    same!((rig.scb(), rig.word(0x200)), (0xA000, 0xA000));
    Ok(())
}

fn three_buffers(sizes: [u16; 3]) -> Rig {
    let mut rig = Rig::ready();
    rig.fd(0x300, 0, 0x320, 0x400);
    for (i, size) in sizes.iter().enumerate() {
        let at = 0x400 + 16 * i;
        rig.rbd(at, at as u16 + 16, 0x800 + 0x100 * i as u16, *size);
    }
    rig
}

fn p3_three_buffers() -> Result<(), String> {
    let mut rig = three_buffers([20, 20, 20]);
    same!(rig.hear(&frame(46), 0), QUIET);
    same!(rig.rest(), 5);
    same!((rig.word(0x400), rig.word(0x410), rig.word(0x420)), (0x4014, 0x4014, 0xC006));
    same!((rig.word(0x300), rig.word(0x326), rig.scb()), (0xA000, 0x430, 0x4040));
    same!(rig.chip.memory[0x800..0x814].to_vec(), frame(46)[14..34].to_vec());
    same!(rig.chip.memory[0xA00..0xA07].to_vec(), [&frame(46)[54..60], &[0]].concat());
    same!(rig.chip.memory[0x308..0x316].to_vec(), frame(0));
    Ok(())
}

fn p4_one_buffer() -> Result<(), String> {
    let mut rig = three_buffers([46, 20, 20]);
    rig.hear(&frame(46), 0);
    same!(rig.rest(), 3);
    same!((rig.word(0x400), rig.word(0x410), rig.word(0x326)), (0xC02E, 0, 0x410));
    Ok(())
}

fn p5_short() -> Result<(), String> {
    let mut rig = three_buffers([20, 20, 20]);
    rig.hear(&frame(45), 0);
    same!(rig.held(), false);
    same!(rig.chip.memory[SCB + 8..SCB + 16].to_vec(), vec![0; 8]);
    rig.hear(&frame(46), 0);
    same!(rig.held(), true);
    Ok(())
}

fn p6_counter_wraps() -> Result<(), String> {
    let mut rig = Rig::ready();
    rig.words(SCB + 8, &[0xFFFF]);
    rig.hear(&frame(46), 1);
    same!(rig.word(SCB + 8), 0);
    Ok(())
}

fn p7_reports() -> Result<(), String> {
    for (report, status, length) in [(0x0003, 0xA003, 14), (0x0020, 0x8020, 0)] {
        let mut rig = Rig::new();
        rig.transmit(0x200, 0x8000, NONE);
        rig.start(0x200);
        rig.turns(1);
        same!(rig.chip.turn(report), Answer { length, ..EDGE });
        same!(rig.word(0x200), status);
    }
    Ok(())
}

fn p8_descriptor_el() -> Result<(), String> {
    let mut rig = three_buffers([46, 20, 20]);
    rig.fd(0x300, 0x8000, 0x320, 0x400);
    rig.hear(&frame(46), 0);
    rig.rest();
    same!((rig.scb(), rig.word(0x326), rig.word(SCB + 12)), (0x5020, 0, 0));
    Ok(())
}

/// A Transmit of so many descriptors of one byte each, EOF in the last.
fn chain(count: usize) -> (usize, u16, Rig) {
    let mut rig = Rig::new();
    rig.transmit(0x200, 0x8000, 0x1000);
    for i in 0..count {
        let at = 0x1000 + 8 * i;
        rig.tbd(at, if i + 1 == count { 0x8001 } else { 1 }, at as u16 + 8, 0x800);
    }
    rig.start(0x200);
    let turns = rig.rest();
    (turns, rig.word(0x200), rig)
}

fn sixty_four_descriptors() -> Result<(), String> {
    let (turns, status, _) = chain(64);
    same!((turns, status), (66, 0xA000));
    let (turns, status, _) = chain(65);
    same!((turns, status), (66, 0x8100));
    Ok(())
}

fn data_2034_passes_2035_not() -> Result<(), String> {
    for (count, answer, status) in [(2034, 2048, 0xA000), (2035, 0, 0x8100)] {
        let mut rig = Rig::new();
        rig.transmit(0x200, 0x8000, 0x400);
        rig.tbd(0x400, 0x8000 | count, NONE, 0x1000);
        rig.chip.memory[0x1000..0x1800].fill(0x77);
        rig.start(0x200);
        same!(rig.turns(3), Answer { length: answer, ..EDGE });
        same!(rig.word(0x200), status);
        same!(rig.chip.outgoing[14], if status == 0xA000 { 0x77 } else { 0 });
    }
    Ok(())
}

// ---- Calls, areas, refusals ----

fn refusals() -> Result<(), String> {
    let mut rig = Rig { chip: Chip::new(8192) };
    same!(rig.chip.attention(), refusal(4));
    same!(rig.chip.turn(0), refusal(4));
    same!(rig.hear(&[], 0), refusal(4));
    same!(rig.hear(&[0; 2049], 0), refusal(3));
    same!(rig.chip.reset(), QUIET);
    same!(rig.hear(&[0; 2049], 0), refusal(3));
    same!(rig.hear(&[0; 2048], 0), dropped(Reason::NoMatch));
    same!(rig.hear(&[], 0), dropped(Reason::TooFew));
    Ok(())
}

fn refusal_numbers() -> Result<(), String> {
    let mut rig = Rig::new();
    rig.chip.n = 8191;
    same!(rig.hear(&[0; 2049], 0), refusal(1));
    same!(rig.chip.attention(), refusal(1));
    same!(rig.chip.turn(0), refusal(1));
    same!(rig.chip.reset(), QUIET);
    Ok(())
}

fn sizes() -> Result<(), String> {
    for (size, number) in [(0, 1), (4096, 1), (8192, 4), (8193, 1), (12_288, 1), (65_536, 4), (1 << 24, 4), (1 << 25, 1)] {
        let mut chip = Chip::new(0);
        chip.n = size;
        same!(chip.turn(0), refusal(number));
    }
    Ok(())
}

fn size_altered() -> Result<(), String> {
    let mut rig = Rig::at(65_536, 0x01_2345, 0x0100);
    rig.chip.attention();
    same!(rig.word(0x2445), 0xA000);
    rig.chip.n = 8192;
    rig.chip.attention();
    same!(rig.word(0x0445), 0xA000);
    Ok(())
}

fn status_not_read_from_memory() -> Result<(), String> {
    let mut rig = Rig::at(8192, 0, SCB as u16);
    rig.chip.attention();
    rig.words(SCB, &[0]);
    rig.command(0);
    same!(rig.scb(), 0xA000);
    Ok(())
}

fn holding_only_by_held() -> Result<(), String> {
    let mut rig = Rig::ready();
    rig.chip.holding.fill(0x11);
    rig.hear(&frame(46), 0);
    same!(rig.chip.holding[..60].to_vec(), frame(46));
    same!(rig.chip.holding[60..].to_vec(), vec![0x11; 1988]);
    let before = rig.chip.holding.clone();
    rig.hear(&[0xFF; 100], 0);
    same!(rig.chip.holding == before, true);
    same!(rig.word(SCB + 14), 1);
    rig.command(0x0040);
    same!(rig.chip.holding == before, true);
    Ok(())
}

fn altered_holding() -> Result<(), String> {
    let mut rig = three_buffers([46, 20, 20]);
    rig.hear(&frame(46), 0);
    rig.turns(1);
    rig.chip.holding[0] = 0x12;
    rig.chip.holding[14] = 0x34;
    rig.rest();
    same!((rig.chip.memory[0x308], rig.chip.memory[0x800]), (0x12, 0x34));
    Ok(())
}

fn altered_outgoing() -> Result<(), String> {
    let mut rig = Rig::new();
    rig.transmit(0x200, 0x8000, NONE);
    rig.start(0x200);
    rig.turns(1);
    same!(rig.chip.outgoing[..14].to_vec(), vec![2, 1, 4, 3, 6, 5, 0xFF, 0xFF, 0xFF, 0xFF, 0xFF, 0xFF, 8, 0]);
    rig.chip.outgoing[12] = 0x99;
    rig.words(0x20E, &[0x7777]);
    same!(rig.turns(1).length, 14);
    same!(rig.chip.outgoing[12], 0x99);
    Ok(())
}

// ---- Addresses ----

fn offset_beyond_65536() -> Result<(), String> {
    let mut rig = Rig::at(131_072, 0, SCB as u16);
    rig.chip.attention();
    rig.words(0xFFFE, &[0, 0x8005]);
    rig.words(SCB + 4, &[0xFFFE]);
    rig.command(0xF100);
    rig.rest();
    same!((rig.word(0xFFFE), rig.word(0x1_0004)), (0xA000, 0x8000));
    Ok(())
}

fn word_over_the_end() -> Result<(), String> {
    let mut rig = Rig::at(8192, 0, 0x1FFF);
    rig.chip.memory[0] = 0x55;
    rig.chip.attention();
    same!((rig.chip.memory[0x1FFF], rig.chip.memory[0]), (0x00, 0xA0));
    Ok(())
}

fn real_addresses() -> Result<(), String> {
    // A buffer's real address has no base added; the byte behind it is ignored.
    let mut rig = Rig::at(65_536, 0x00_4000, 0x0100);
    rig.chip.attention();
    rig.fd(0x4300, 0, 0x320, 0x400);
    rig.words(0x4400, &[0, NONE, 0x0800, 0x7700, 46]);
    rig.words(0x4106, &[0x300]);
    rig.words(0x4102, &[0x0010]);
    rig.chip.attention();
    rig.hear(&frame(46), 0);
    rig.rest();
    same!((rig.chip.memory[0x800], rig.chip.memory[0x4800]), (0x80, 0));
    Ok(())
}

fn scp_place() -> Result<(), String> {
    for n in [8192, 16_384, 65_536] {
        let mut rig = Rig::at(n, 0, SCB as u16);
        rig.chip.memory[n - 1] = 0xFF;
        rig.chip.attention();
        same!(rig.scb(), 0xA000);
    }
    Ok(())
}

fn ffff_links() -> Result<(), String> {
    // A frame descriptor's link FFFFh is an offset: +6 of what lies there is at base + 10005h.
    let mut rig = Rig::ready();
    rig.fd(0x300, 0, 0xFFFF, 0x400);
    rig.rbd(0x400, 0x0410, 0x800, 46);
    rig.hear(&frame(46), 0);
    rig.rest();
    same!(rig.word(0x0005), 0x0410);
    same!(rig.chip.device.ru, Ru::Ready { descriptor: 0xFFFF, suspend: false, held: None });
    Ok(())
}

// ---- Copies at the end of memory ----

/// Memory's size, and a place in it: the end of the smallest and of the largest, and one that ends nothing though 16 bits end there.
const ENDS: [(usize, usize); 3] = [(8_192, 8_192), (1 << 24, 1 << 24), (1 << 24, 1 << 16)];

/// A buffer's bytes before the end, and in all: it ends there, goes one byte over it, begins at the last byte, is that byte, has a good part
/// behind it.
const BUFFERS: [(usize, usize); 5] = [(5, 5), (5, 6), (1, 6), (1, 1), (16, 64)];

/// Bytes before and behind an end, in one row; a byte that the chip has not written.
const BEFORE: usize = 32;
const ROW: usize = BEFORE + 80;
const OLD: u8 = 0xEE;

impl Rig {
    /// Initialised, the SCB at 0100h, all acknowledged. The base is such that offsets reach what lies before this end.
    fn reaching(n: usize, end: usize) -> Rig {
        let base = if end == n { n - 0x100 } else { 0 };
        let mut rig = Rig::at(n, base as u32, ((SCB + n - base) % n) as u16);
        rig.chip.attention();
        rig.command(0xF000);
        rig
    }

    fn offset(&self, at: usize) -> u16 {
        let base = self.chip.device.scb.map_or(0, |scb| scb.base) as usize;
        ((at + self.chip.n - base) % self.chip.n) as u16
    }

    /// A descriptor's real address.
    fn real(&mut self, descriptor: usize, address: usize) {
        self.words(descriptor + 4, &[address as u16, (address >> 16) as u16]);
    }

    /// The host's bytes around an end.
    fn lay(&mut self, end: usize, row: &[u8]) {
        let behind = end % self.chip.n;
        self.bytes(end - BEFORE, &row[..BEFORE]);
        self.bytes(behind, &row[BEFORE..]);
    }

    fn row(&self, end: usize) -> Vec<u8> {
        let behind = end % self.chip.n;
        [&self.chip.memory[end - BEFORE..end], &self.chip.memory[behind..behind + ROW - BEFORE]].concat()
    }
}

/// A row of bytes that all differ.
fn counting() -> Vec<u8> {
    (0x40..).take(ROW).collect()
}

/// A row of old bytes but for these, from so far before the end on.
fn with(before: usize, bytes: &[u8]) -> Vec<u8> {
    let mut row = vec![OLD; ROW];
    row[BEFORE - before..BEFORE - before + bytes.len()].copy_from_slice(bytes);
    row
}

fn sent_at_the_end() -> Result<(), String> {
    for (n, end) in ENDS {
        for (before, count) in BUFFERS {
            let mut rig = Rig::reaching(n, end);
            rig.lay(end, &counting());
            rig.transmit(0x200, 0x8000, rig.offset(0x400));
            rig.tbd(0x400, 0x8000 | count as u16, NONE, 0);
            rig.real(0x400, end - before);
            rig.chip.outgoing.fill(OLD);
            rig.start(rig.offset(0x200));
            same!(usize::from(rig.turns(3).length), 14 + count);
            same!(rig.chip.outgoing[14..14 + count].to_vec(), counting()[BEFORE - before..BEFORE - before + count].to_vec());
            same!(rig.chip.outgoing[14 + count..].iter().all(|byte| *byte == OLD), true);
        }
    }
    Ok(())
}

/// The buffer's size is just what it gets, and it is the last or another one follows; or the size is larger and the data ends.
fn stored_at_the_end() -> Result<(), String> {
    for (n, end) in ENDS {
        for (before, count) in BUFFERS {
            for (room, more) in [(0, 0), (0, 3), (50, 0)] {
                let mut rig = Rig::reaching(n, end);
                rig.chip.device.minimum = 0;
                rig.lay(end, &[OLD; ROW]);
                rig.fd(0x300, 0x8000, 0, rig.offset(0x400));
                rig.rbd(0x400, rig.offset(0x410), 0, (count + room) as u16);
                rig.real(0x400, end - before);
                rig.rbd(0x410, NONE, 0x800, 10);
                rig.words(SCB + 6, &[rig.offset(0x300)]);
                rig.command(0x0010);
                let heard = frame(count + more);
                let marks = if more == 0 { 0xC000 } else { 0x4000 };
                rig.hear(&heard, 0);
                rig.rest();
                same!(rig.row(end), with(before, &heard[14..14 + count]));
                same!(rig.word(0x400), marks | count as u16);
                same!(rig.chip.memory[0x800..0x800 + more].to_vec(), heard[14 + count..].to_vec());
                same!(rig.chip.memory[0x800 + more], 0);
            }
        }
    }
    Ok(())
}

fn transmit_header_at_the_end() -> Result<(), String> {
    for (n, end) in ENDS {
        for before in 0..=8 {
            let mut rig = Rig::reaching(n, end);
            let block = [0, 0, 4, 0x80, 0, 0, 0xFF, 0xFF, 1, 2, 3, 4, 5, 6, 7, 8];
            rig.lay(end, &with(before + 8, &block));
            rig.start(rig.offset(end - before - 8));
            same!(rig.turns(2).length, 14);
            same!(rig.chip.outgoing[..15].to_vec(), vec![1, 2, 3, 4, 5, 6, 0xFF, 0xFF, 0xFF, 0xFF, 0xFF, 0xFF, 7, 8, 0]);
        }
    }
    Ok(())
}

fn frame_header_at_the_end() -> Result<(), String> {
    for (n, end) in ENDS {
        for before in 0..=14 {
            let mut rig = Rig::reaching(n, end);
            rig.chip.device.promiscuous = true;
            let first = rig.offset(0x400).to_le_bytes();
            rig.lay(end, &with(before + 8, &[0, 0, 0, 0x80, 0, 0, first[0], first[1]]));
            rig.rbd(0x400, NONE, 0x800, 46);
            rig.words(SCB + 6, &[rig.offset(end - before - 8)]);
            rig.command(0x0010);
            let heard: Vec<u8> = (1..=60).collect();
            rig.hear(&heard, 0);
            rig.rest();
            let stored = [&[0x00, 0xA0, 0, 0x80, 0, 0, first[0], first[1]], &heard[..14]].concat();
            same!(rig.row(end), with(before + 8, &stored));
        }
    }
    Ok(())
}

fn ia_setup_at_the_end() -> Result<(), String> {
    for (n, end) in ENDS {
        for before in 0..=6 {
            let mut rig = Rig::reaching(n, end);
            rig.lay(end, &with(before + 6, &[0, 0, 1, 0x80, 0, 0, 2, 3, 4, 5, 6, 7]));
            rig.start(rig.offset(end - before - 6));
            rig.rest();
            same!(rig.chip.device.own, [2, 3, 4, 5, 6, 7]);
        }
    }
    Ok(())
}

// ---- First attention ----

fn init_order() -> Result<(), String> {
    let mut rig = Rig::at(8192, 0, 0x003F);
    rig.chip.attention();
    same!(rig.chip.memory[0x3F..0x43].to_vec(), vec![0x00, 0xA0, 0x00, 0x00]);
    Ok(())
}

fn init_obeys_nothing() -> Result<(), String> {
    let mut rig = Rig::at(8192, 0, SCB as u16);
    same!(rig.command(0x8090), EDGE);
    same!((rig.scb(), rig.word(SCB + 2)), (0xA000, 0));
    same!(rig.chip.device.scb.is_some(), true);
    Ok(())
}

fn init_before() -> Result<(), String> {
    let mut rig = Rig::at(8192, 0, SCB as u16);
    let before = rig.chip.memory.clone();
    same!(rig.turns(2), QUIET);
    same!(rig.hear(&frame(46), 0), dropped(Reason::Idle));
    same!(rig.hear(&frame(46), 1), dropped(Reason::Idle));
    same!(rig.chip.memory == before, true);
    Ok(())
}

fn init_again() -> Result<(), String> {
    let mut rig = Rig::new();
    rig.command(0x0080);
    rig.words(0x42, &[0x0180]);
    same!(rig.chip.attention(), EDGE);
    same!(rig.word(0x180), 0xA000);
    Ok(())
}

// ---- Attention ----

fn attention_cu_before_ru() -> Result<(), String> {
    let mut rig = Rig::new();
    rig.words(0x106, &[0, 0x8000]);
    rig.start(0x106);
    rig.turns(1);
    rig.command(0x0410);
    same!(rig.chip.device.ru, Ru::Ready { descriptor: 0x9000, suspend: false, held: None });
    Ok(())
}

fn attention_ru_after_cu() -> Result<(), String> {
    let mut rig = Rig::new();
    rig.words(SCB + 4, &[0, 0x104]);
    rig.command(0x0010);
    rig.hear(&frame(46), 0);
    rig.turns(1);
    same!(rig.word(0x104), 0x4000);
    rig.command(0x0140);
    same!(rig.word(0x104), 0x0000);
    same!(rig.chip.device.cu, crate::chip::Cu::Active { block: 0x4000, begun: None });
    Ok(())
}

fn attention_ack_first() -> Result<(), String> {
    let mut rig = Rig::at(8192, 0, SCB as u16);
    rig.chip.attention();
    rig.words(0x200, &[0, 0x8000, 0]);
    rig.words(SCB + 4, &[0x200]);
    rig.command(0x8100);
    rig.turns(1);
    same!(rig.command(0x2400), EDGE);
    same!((rig.scb(), rig.word(0x200)), (0x2000, 0x9000));
    Ok(())
}

fn attention_status_last() -> Result<(), String> {
    let mut rig = Rig::new();
    rig.start(0x100);
    rig.turns(1);
    same!(rig.scb(), 0x4000);
    rig.command(0x0400);
    same!((rig.scb(), rig.word(SCB + 2)), (0x2000, 0));
    // A block over SCB+2: the closing 0 wins.
    let mut rig = Rig::new();
    rig.start(0x102);
    rig.turns(1);
    rig.command(0x0400);
    same!((rig.scb(), rig.word(SCB + 2)), (0x2000, 0));
    Ok(())
}

fn attention_resets() -> Result<(), String> {
    let mut rig = Rig::ready();
    rig.hear(&frame(46), 0);
    rig.turns(1);
    rig.words(0x200, &[0, 0x8000, 0]);
    rig.start(0x200);
    rig.turns(2);
    let status = rig.scb();
    same!(rig.command(0xF4C0), QUIET);
    same!((rig.scb(), rig.word(SCB + 2)), (status, 0));
    same!((rig.word(0x200), rig.word(0x300)), (0x4000, 0x4000));
    same!(rig.chip.device == crate::chip::Device::fresh(), true);
    Ok(())
}

fn attention_reserved() -> Result<(), String> {
    let mut rig = Rig::new();
    for word in [0x080F, 0x0550, 0x0660, 0x0770, 0x0220, 0x0330] {
        same!(rig.command(word), QUIET);
        same!(rig.scb(), 0);
    }
    Ok(())
}

// ---- Control codes ----

fn start_when_active() -> Result<(), String> {
    let mut rig = Rig::new();
    rig.words(0x200, &[0, 0x8000, 0]);
    rig.start(0x200);
    rig.start(0x300);
    rig.rest();
    same!((rig.word(0x200), rig.word(0x300)), (0xA000, 0));
    Ok(())
}

fn resume_when_waiting() -> Result<(), String> {
    let mut rig = Rig::new();
    rig.start(0x200);
    rig.turns(1);
    same!(rig.command(0x0300), QUIET);
    rig.command(0x0200);
    rig.turns(1);
    same!(rig.scb(), 0x2100);
    Ok(())
}

fn suspend_cu() -> Result<(), String> {
    let mut rig = Rig::new();
    rig.words(0x200, &[0, 0x8000, 0]);
    rig.start(0x200);
    same!(rig.command(0x0300), EDGE);
    same!(rig.scb(), 0x2100);
    rig.words(SCB + 4, &[0x300]);
    rig.command(0x2200);
    rig.turns(1);
    same!(rig.word(0x200), 0x4000);
    rig.command(0x0300);
    same!(rig.command(0x0300), QUIET);
    Ok(())
}

fn suspend_ru() -> Result<(), String> {
    let mut rig = Rig::ready();
    same!(rig.command(0x0030), EDGE);
    same!(rig.scb(), 0x1010);
    let mut rig = three_buffers([46, 20, 20]);
    rig.hear(&frame(46), 0);
    same!(rig.command(0x0030), QUIET);
    same!(rig.scb(), 0x0040);
    rig.rest();
    same!((rig.scb(), rig.word(0x326)), (0x5010, 0x410));
    same!(rig.chip.device.ru, Ru::Suspended { next: 0x320 });
    Ok(())
}

fn waiting_forgotten() -> Result<(), String> {
    let mut rig = Rig::new();
    rig.words(0x200, &[0, 0x8000, 0x200]);
    rig.start(0x200);
    rig.turns(1);
    rig.command(0x0300);
    rig.turns(1);
    same!(rig.scb(), 0x2000);
    rig.words(0x200, &[0, 0x0000, 0x200]);
    rig.command(0x2100);
    rig.turns(2);
    same!(rig.chip.device.status(), 0x0200);
    Ok(())
}

fn aborts_off() -> Result<(), String> {
    let mut rig = Rig::new();
    same!(rig.command(0x0440), QUIET);
    same!(rig.scb(), 0);
    rig.start(0x200);
    rig.command(0x0300);
    same!(rig.command(0x2400), QUIET);
    same!((rig.scb(), rig.word(0x200)), (0, 0));
    // Active but not begun: CNA, no write.
    rig.start(0x200);
    same!(rig.command(0x0400), EDGE);
    same!((rig.scb(), rig.word(0x200)), (0x2000, 0));
    Ok(())
}

fn abort_kinds() -> Result<(), String> {
    for kind in 0..8 {
        let mut rig = Rig::new();
        rig.words(0x200, &[0, 0xA000 | kind, 0, 0x1234]);
        rig.start(0x200);
        rig.turns(1);
        rig.command(0x0400);
        same!((rig.word(0x200), rig.word(0x206), rig.scb()), (0x9000, 0x1234, 0x2000));
        same!(rig.chip.device.own, [0xFF; 6]);
    }
    Ok(())
}

fn abort_ru() -> Result<(), String> {
    let mut rig = three_buffers([20, 20, 20]);
    rig.words(0x300, &[0x1234]);
    rig.hear(&frame(46), 0);
    same!(rig.command(0x0040), EDGE);
    same!((rig.word(0x300), rig.scb()), (0x1234, 0x1000));
    rig.command(0x1010);
    rig.hear(&frame(46), 0);
    rig.turns(2);
    rig.command(0x0040);
    same!((rig.word(0x300), rig.word(0x400), rig.chip.memory[0x800]), (0, 0x4014, 0x80));
    same!(rig.chip.memory[SCB + 8..SCB + 16].to_vec(), vec![0; 8]);
    Ok(())
}

fn resume_takes_old_link() -> Result<(), String> {
    let mut rig = Rig::new();
    rig.words(0x200, &[0, 0x4000, 0x220]);
    rig.start(0x200);
    rig.turns(2);
    same!(rig.scb(), 0x2100);
    rig.words(0x204, &[0x240]);
    rig.command(0x0200);
    rig.turns(1);
    same!((rig.word(0x220), rig.word(0x240)), (0x4000, 0));
    Ok(())
}

fn waiting_of_each_unit() -> Result<(), String> {
    let mut rig = three_buffers([46, 20, 20]);
    rig.fd(0x300, 0x8000, 0x320, 0x400);
    rig.hear(&frame(46), 0);
    rig.start(0x200);
    rig.turns(2);
    rig.command(0x0330);
    rig.turns(1);
    while rig.held() {
        rig.turns(1);
    }
    same!(rig.chip.device.ru, Ru::NoResources);
    rig.rest();
    same!(rig.chip.device.status() & 0x0700, 0x0100);
    Ok(())
}

fn started_writes_nothing() -> Result<(), String> {
    let mut rig = Rig::new();
    rig.words(0x300, &[0x1234]);
    rig.words(SCB + 6, &[0x300]);
    rig.command(0x0010);
    same!(rig.word(0x300), 0x1234);
    rig.hear(&frame(46), 0);
    same!(rig.word(0x300), 0x1234);
    rig.turns(1);
    same!(rig.word(0x300), 0x4000);
    Ok(())
}

// ---- Status, events, edges ----

fn plain_end_writes_no_status() -> Result<(), String> {
    let mut rig = Rig::new();
    rig.words(0x200, &[0, 0, 0x220]);
    rig.start(0x200);
    rig.words(SCB, &[0x1234]);
    same!(rig.turns(2), QUIET);
    same!((rig.scb(), rig.word(0x200)), (0x1234, 0xA000));
    Ok(())
}

fn events_again() -> Result<(), String> {
    let mut rig = Rig::new();
    rig.words(0x200, &[0, 0x2000, 0x200]);
    rig.start(0x200);
    same!(rig.turns(2), EDGE);
    same!(rig.turns(2), EDGE);
    same!(rig.hear(&frame(46), 0), dropped(Reason::Idle));
    Ok(())
}

fn edges_of_attention() -> Result<(), String> {
    let mut rig = Rig::at(8192, 0, SCB as u16);
    same!(rig.chip.attention(), EDGE);
    same!(rig.command(0x0000), EDGE);
    same!(rig.command(0xF000), QUIET);
    same!(rig.command(0x0000), QUIET);
    Ok(())
}

fn cx_only_by_i() -> Result<(), String> {
    let mut rig = Rig::new();
    rig.words(0x200, &[0, 0x8000, 0]);
    rig.start(0x200);
    rig.turns(2);
    same!(rig.scb(), 0x2000);
    Ok(())
}

// ---- Turns ----

fn alternation() -> Result<(), String> {
    // R C R C after reset.
    let mut rig = three_buffers([46, 20, 20]);
    rig.words(0x200, &[0, 0, 0x200]);
    rig.start(0x200);
    rig.hear(&frame(46), 0);
    rig.turns(1);
    same!((rig.word(0x300), rig.word(0x200)), (0x4000, 0));
    rig.turns(1);
    same!(rig.word(0x200), 0x4000);
    rig.turns(1);
    same!((rig.word(0x400), rig.word(0x200)), (0xC02E, 0x4000));
    rig.turns(1);
    same!((rig.word(0x300), rig.word(0x200)), (0x4000, 0xA000));
    // The CU alone three turns, then a frame: RU next. The RU last, then the CU started: CU next.
    let mut rig = three_buffers([46, 20, 20]);
    rig.words(0x200, &[0, 0, 0x200]);
    rig.start(0x200);
    rig.turns(3);
    rig.hear(&frame(46), 0);
    rig.turns(1);
    same!(rig.word(0x300), 0x4000);
    let mut rig = three_buffers([46, 20, 20]);
    rig.hear(&frame(46), 0);
    rig.turns(1);
    rig.start(0x200);
    rig.turns(1);
    same!((rig.word(0x200), rig.word(0x400)), (0x4000, 0));
    Ok(())
}

fn turn_counts_sending() -> Result<(), String> {
    for (first, word, next, turns, status) in [
        (NONE, 0, 0, 2, 0xA000),
        (0x400, 0x8000 | 2035, NONE, 3, 0x8100),
        (0x400, 10, NONE, 3, 0x8100),
        (0x400, 0x8000, NONE, 3, 0xA000),
        (0x400, 0, 0x400, 66, 0x8100),
    ] {
        let mut rig = Rig::new();
        rig.transmit(0x200, 0x8000, first);
        rig.tbd(0x400, word, next, 0x800);
        rig.start(0x200);
        same!((rig.rest(), rig.word(0x200)), (turns, status));
    }
    Ok(())
}

fn turn_counts_storing() -> Result<(), String> {
    let mut rig = Rig::ready();
    rig.fd(0x300, 0, 0x320, NONE);
    rig.hear(&frame(46), 0);
    same!((rig.rest(), rig.scb(), rig.word(SCB + 12)), (2, 0x1020, 1));
    let mut rig = three_buffers([20, 20, 20]);
    rig.rbd(0x410, NONE, 0x900, 20);
    rig.hear(&frame(46), 0);
    same!((rig.rest(), rig.word(0x400), rig.word(0x410)), (4, 0x4014, 0x4014));
    let mut rig = three_buffers([1, 1, 1]);
    rig.rbd(0x400, 0x400, 0x900, 1);
    rig.hear(&frame(65), 0);
    same!((rig.rest(), rig.scb()), (66, 0x1020));
    Ok(())
}

fn report_only_at_transmit_end() -> Result<(), String> {
    let mut rig = Rig::new();
    rig.words(0x200, &[0, 0x8000, 0]);
    rig.start(0x200);
    rig.chip.turn(0xFFFF);
    rig.chip.turn(0xFFFF);
    same!(rig.word(0x200), 0xA000);
    let mut rig = Rig::new();
    rig.transmit(0x200, 0x8000, NONE);
    rig.start(0x200);
    rig.chip.turn(0xFFFF);
    same!(rig.chip.turn(0).length, 14);
    same!(rig.word(0x200), 0xA000);
    Ok(())
}

// ---- Runs ----

const SENT: Answer = Answer { length: 14, ..QUIET };

fn run_refused() -> Result<(), String> {
    let mut rig = Rig { chip: Chip::new(8192) };
    same!((rig.chip.run(0, 0), rig.chip.run(9, 0xFFFF)), ((refusal(4), 0), (refusal(4), 0)));
    rig.chip.n = 8191;
    same!((rig.chip.run(0, 0), rig.chip.run(9, 0)), ((refusal(1), 0), (refusal(1), 0)));
    Ok(())
}

fn run_of_nothing() -> Result<(), String> {
    // A budget of 0 takes no turn, with work or without; one that finds no work counts.
    let mut rig = Rig::new();
    same!((rig.chip.run(0, 0), rig.chip.run(1, 0), rig.chip.run(0xFFFF, 0xFFFF)), ((QUIET, 0), (QUIET, 1), (QUIET, 1)));
    rig.words(0x200, &[0, 0x8000, 0]);
    rig.start(0x200);
    same!((rig.chip.run(0, 0), rig.word(0x200)), ((QUIET, 0), 0));
    Ok(())
}

fn run_to_its_budget() -> Result<(), String> {
    let mut rig = Rig::new();
    rig.words(0x200, &[0, 0, 0x200]);
    rig.start(0x200);
    same!((rig.chip.run(1, 0), rig.word(0x200)), ((QUIET, 1), 0x4000));
    same!((rig.chip.run(3, 0), rig.word(0x200)), ((QUIET, 3), 0xA000));
    same!((rig.chip.run(0xFFFF, 0), rig.word(0x200)), ((QUIET, 0xFFFF), 0x4000));
    Ok(())
}

fn run_to_no_work() -> Result<(), String> {
    // The list's end raises CNA; the run after it finds no work.
    let mut rig = Rig::new();
    rig.words(0x200, &[0, 0, 0x210]);
    rig.words(0x210, &[0, 0x8000, 0]);
    rig.start(0x200);
    same!((rig.chip.run(9, 0), rig.chip.run(9, 0)), ((EDGE, 4), (QUIET, 1)));
    Ok(())
}

fn run_to_a_frame() -> Result<(), String> {
    // A Transmit that raises nothing ends a run, if its frame was sent.
    for (report, answer) in [(0x0003, (SENT, 2)), (0x0020, (QUIET, 5))] {
        let mut rig = Rig::new();
        rig.transmit(0x200, 0, NONE);
        rig.start(0x200);
        same!(rig.chip.run(5, report), answer);
    }
    Ok(())
}

fn run_to_an_edge() -> Result<(), String> {
    // An event that is set already is raised again: it ends a run too.
    let mut rig = Rig::new();
    rig.words(0x200, &[0, 0x2000, 0x200]);
    rig.start(0x200);
    same!((rig.chip.run(9, 0), rig.chip.run(9, 0), rig.chip.run(1, 0)), ((EDGE, 2), (EDGE, 2), (QUIET, 1)));
    same!((rig.chip.run(1, 0), rig.scb()), ((EDGE, 1), 0x8200));
    Ok(())
}

fn run_stores() -> Result<(), String> {
    let mut rig = three_buffers([20, 20, 20]);
    rig.hear(&frame(46), 0);
    same!(rig.chip.run(200, 0), (EDGE, 5));
    same!((rig.word(0x400), rig.word(0x410), rig.word(0x420)), (0x4014, 0x4014, 0xC006));
    same!((rig.word(0x300), rig.scb()), (0xA000, 0x4040));
    Ok(())
}

fn run_as_turns() -> Result<(), String> {
    // Both units at work: every budget leaves what so many turns leave.
    let both = || {
        let mut rig = three_buffers([20, 20, 20]);
        rig.transmit(0x200, 0, NONE);
        rig.words(0x204, &[0x200]);
        rig.start(0x200);
        rig.hear(&frame(46), 0);
        rig
    };
    for budget in 0..12 {
        let (mut one, mut other) = (both(), both());
        let (last, taken) = one.chip.run(budget, 0x00C3);
        same!(taken, budget.min(4));
        let mut turn = QUIET;
        for _ in 0..taken {
            turn = other.chip.turn(0x00C3);
        }
        same!(last, turn);
        same!(one.chip.device == other.chip.device, true);
        same!((one.chip.memory == other.chip.memory, one.chip.outgoing == other.chip.outgoing), (true, true));
    }
    Ok(())
}

// ---- Commands ----

fn begin_keeps() -> Result<(), String> {
    let mut rig = Rig::new();
    rig.words(0x200, &[0, 0x8001, 0, 0, 0, 0]);
    rig.start(0x200);
    rig.turns(1);
    rig.words(0x202, &[0x2006, 0x220, 0x0201, 0x0403, 0x0605]);
    rig.turns(1);
    same!((rig.word(0x200), rig.scb(), rig.chip.device.own), (0xA000, 0x2000, [1, 2, 3, 4, 5, 6]));
    let mut rig = Rig::new();
    rig.words(0x200, &[0, 0, 0x220]);
    rig.start(0x200);
    rig.turns(1);
    rig.words(0x204, &[0x240]);
    rig.turns(2);
    same!((rig.word(0x220), rig.word(0x240)), (0, 0x4000));
    Ok(())
}

fn link_before_status() -> Result<(), String> {
    let mut rig = Rig::new();
    rig.words(0xFC, &[0, 0x2000]);
    rig.start(0xFC);
    rig.turns(2);
    same!(rig.scb(), 0x8200);
    same!(rig.chip.device.cu, crate::chip::Cu::Active { block: 0x0200, begun: None });
    Ok(())
}

fn link_ffff() -> Result<(), String> {
    let mut rig = Rig::new();
    rig.words(0x200, &[0, 0, 0xFFFF]);
    rig.start(0x200);
    rig.turns(3);
    same!((rig.chip.memory[0x1FFF], rig.chip.memory[0]), (0x00, 0x40));
    Ok(())
}

fn failures_end_normally() -> Result<(), String> {
    let mut rig = Rig::new();
    rig.words(0x200, &[0, 0x6006, 0x220]);
    rig.start(0x200);
    same!(rig.turns(2), EDGE);
    same!((rig.word(0x200), rig.scb()), (0x8000, 0xA100));
    same!(rig.chip.device.cu, crate::chip::Cu::Suspended { next: 0x220 });
    Ok(())
}

fn el_wins() -> Result<(), String> {
    let mut rig = Rig::new();
    rig.words(0x200, &[0, 0xC000, 0x220]);
    rig.start(0x200);
    rig.turns(2);
    same!((rig.scb(), rig.chip.device.cu), (0x2000, crate::chip::Cu::Idle));
    Ok(())
}

fn ia_setup() -> Result<(), String> {
    let mut rig = Rig::new();
    same!(rig.one(0x200, 1, &[1, 2, 3, 4, 5, 6, 7]), 0xA000);
    same!(rig.chip.device.own, [1, 2, 3, 4, 5, 6]);
    Ok(())
}

fn settings(rig: &Rig) -> (bool, bool, bool, u8) {
    let device = &rig.chip.device;
    (device.save_bad, device.promiscuous, device.no_broadcast, device.minimum)
}

fn configure_bytes() -> Result<(), String> {
    let mut rig = Rig::new();
    same!(rig.configure(&[0x0B, 0x08, 0x80, 0x26, 0, 0x60, 0, 0xF2, 0x01, 0, 0]), 0xA000);
    same!(settings(&rig), (true, true, false, 0));
    Ok(())
}

fn configure_counts() -> Result<(), String> {
    for count in 0..16 {
        let mut rig = Rig::new();
        same!(rig.configure(&[0xF0 | count, 0, 0x80, 6, 0, 0, 0, 0, 3, 0, 200]), 0xA000);
        let eight = count > 8;
        same!(settings(&rig), (true, eight, eight, if count > 10 { 200 } else { 64 }));
    }
    Ok(())
}

fn configure_rejects() -> Result<(), String> {
    let before = Header { address: 3, in_buffers: true };
    for byte in 0..=255 {
        let mut rig = Rig::new();
        rig.chip.device.header = before;
        let taken = byte & 7 != 7 && byte & 0xC0 == 0;
        same!(rig.configure(&[12, 0, 0x80, byte, 0, 0, 0, 0, 3, 0, 0]), if taken { 0xA000 } else { 0x8000 });
        same!(settings(&rig), if taken { (true, true, true, 0) } else { (false, false, false, 64) });
        same!(rig.chip.device.header, if taken { Header { address: byte & 7, in_buffers: byte & 8 != 0 } } else { before });
    }
    // Byte 3 is taken by every count.
    for count in 0..16 {
        let mut rig = Rig::new();
        same!(rig.configure(&[count, 0, 0, 0x0A]), 0xA000);
        same!(rig.chip.device.header, Header { address: 2, in_buffers: true });
    }
    Ok(())
}

/// A group of the 64 that fall on all the bits of the filter.
fn group(which: u8) -> [u8; 6] {
    [1, 0, 0, 0, 0, which]
}

/// What the program of document 000, section 5.5, answers.
fn hash_values() -> Result<(), String> {
    for (address, value) in [
        ([0xFF, 0xFF, 0xFF, 0xFF, 0xFF, 0xFF], 59),
        ([0x01, 0x00, 0x5E, 0x00, 0x00, 0x01], 52),
        ([0xAB, 0x00, 0x00, 0x02, 0x00, 0x00], 59),
        ([0x01, 0x80, 0xC2, 0x00, 0x00, 0x00], 40),
        ([0x01, 0x00, 0x00, 0x00, 0x00, 0x00], 5),
        ([0xCF, 0x00, 0x00, 0x00, 0x00, 0x00], 43),
    ] {
        same!((address, hash(&address)), (address, value));
    }
    Ok(())
}

/// The same program, asked for other address lengths.
fn hash_of_short_addresses() -> Result<(), String> {
    for (address, value) in [
        (&[0x01][..], 50),
        (&[0x15], 0),
        (&[0xFF], 0),
        (&[0x01, 0x02], 36),
        (&[0x01, 0x03], 59),
        (&[0xFF, 0xFF], 0),
        (&[0x01, 0x02, 0x03], 42),
        (&[0x01, 0x02, 0x03, 0x04], 36),
        (&[0x01, 0x02, 0x03, 0x04, 0x05], 56),
        (&[0xFF, 0xFF, 0xFF, 0xFF, 0xFF], 45),
    ] {
        same!((address, hash(address)), (address, value));
    }
    Ok(())
}

fn hash_shared() -> Result<(), String> {
    let bits = (0..64).fold(0u64, |bits, which| bits | 1 << hash(&group(which)));
    same!(bits, u64::MAX);
    // What follows it falls on bits that are taken.
    same!(hash(&group(0x40)), hash(&group(0x3F)));
    // Bit 59 is that of all FFh: a group has it too.
    same!(hash(&group(0x20)), hash(&[0xFF; 6]));
    Ok(())
}

fn mc_setup() -> Result<(), String> {
    for (count, listed) in [(0u16, 0), (5, 0), (6, 1), (95, 15), (96, 16), (101, 16), (102, 17), (180, 30), (383, 63), (384, 64), (0xC00C, 2)] {
        let mut rig = Rig::new();
        let mut bytes = count.to_le_bytes().to_vec();
        bytes.extend((0..64).flat_map(group));
        same!(rig.one(0x200, 3, &bytes), 0xA000);
        same!(rig.chip.device.filter, (0..listed).fold(0, |filter, which| filter | 1 << hash(&group(which))));
        same!(rig.chip.device.filter.count_ones(), u32::from(listed));
    }
    Ok(())
}

fn mc_setup_replaces() -> Result<(), String> {
    let mut rig = Rig::new();
    let list = |addresses: &[[u8; 6]], more: u16| {
        let mut bytes = (6 * addresses.len() as u16 + more).to_le_bytes().to_vec();
        bytes.extend(addresses.concat());
        bytes.extend([1, 0, 0, 0, 0]);
        bytes
    };
    for addresses in [&[group(1), group(2)][..], &[group(3)], &[], &[group(4), group(4)], &[[0xFF; 6]], &[[2, 0, 0, 0, 0, 0]]] {
        same!(rig.one(0x200, 3, &list(addresses, 5)), 0xA000);
        same!(rig.chip.device.filter, addresses.iter().fold(0, |filter, address| filter | 1 << hash(address)));
    }
    // Both resets empty it.
    rig.command(0x0080);
    same!(rig.chip.device.filter, 0);
    let mut rig = Rig::new();
    rig.one(0x200, 3, &list(&[group(1)], 0));
    rig.chip.reset();
    same!(rig.chip.device.filter, 0);
    Ok(())
}

fn mc_setup_at_the_end() -> Result<(), String> {
    let mut rig = Rig::new();
    rig.words(0x200, &[0, 0x8003, 0, 12]);
    rig.bytes(0x208, &[group(1), group(2)].concat());
    rig.start(0x200);
    rig.turns(1);
    rig.words(0x206, &[6]);
    rig.bytes(0x208, &group(3));
    same!(rig.chip.device.filter, 0);
    rig.turns(1);
    same!(rig.chip.device.filter, 1 << hash(&group(3)));
    Ok(())
}

/// 16,383 bytes in 8,192: the list comes to its own status twice, as bytes 0 and 1 of one address and as bytes 2 and 3 of the last.
fn mc_setup_around() -> Result<(), String> {
    for (count, met) in [(8184, 0), (8190, 1), (16_374, 1), (16_380, 2), (16_383, 2)] {
        let mut rig = Rig::new();
        rig.words(0x1E00, &[0x1111, 0x8003, 0x2345, count]);
        rig.start(0x1E00);
        rig.turns(1);
        let list = |status: [u8; 2]| {
            let mut memory = rig.chip.memory.clone();
            memory[0x1E00..0x1E02].copy_from_slice(&status);
            let bytes: Vec<u8> = (0..usize::from(count)).map(|i| memory[(0x1E08 + i) % 8192]).collect();
            let addresses: Vec<[u8; 6]> = bytes.chunks_exact(6).map(|six| std::array::from_fn(|i| six[i])).collect();
            addresses
        };
        let filter = |addresses: &[[u8; 6]]| addresses.iter().fold(0, |filter, address| filter | 1 << hash(address));
        let (right, late) = (list([0x00, 0x40]), list([0x00, 0xA0]));
        let (right_filter, late_filter) = (filter(&right), filter(&late));
        same!(right.iter().zip(&late).filter(|(one, other)| one != other).count(), met);
        same!(right.get(1364).copied(), if met > 0 { Some([0x00, 0x40, 0x03, 0x80, 0x45, 0x23]) } else { None });
        same!(right_filter != late_filter, met > 0);
        rig.turns(1);
        same!((rig.word(0x1E00), rig.chip.device.filter), (0xA000, right_filter));
    }
    Ok(())
}

fn transmit_tests() -> Result<(), String> {
    // Data of a descriptor that fails by FFFFh is copied; a count of 0 at 2,048 bytes passes.
    let mut rig = Rig::new();
    rig.transmit(0x200, 0x8000, 0x400);
    rig.tbd(0x400, 0x4002, NONE, 0x800);
    rig.words(0x800, &[0x2211]);
    rig.start(0x200);
    rig.rest();
    same!((rig.word(0x200), rig.chip.outgoing[14..17].to_vec()), (0x8100, vec![0x11, 0x22, 0]));
    let mut rig = Rig::new();
    rig.transmit(0x200, 0x8000, 0x400);
    rig.tbd(0x400, 2034, 0x408, 0x800);
    rig.tbd(0x408, 0x8000, NONE, 0x800);
    rig.start(0x200);
    same!(rig.turns(4), Answer { length: 2048, ..EDGE });
    Ok(())
}

fn transmit_next_kept() -> Result<(), String> {
    let mut rig = Rig::new();
    rig.transmit(0x200, 0x8000, 0x400);
    rig.tbd(0x400, 1, 0x408, 0x800);
    rig.tbd(0x408, 0x8001, NONE, 0x800);
    rig.start(0x200);
    rig.turns(2);
    rig.words(0x402, &[NONE]);
    same!(rig.turns(2).length, 16);
    Ok(())
}

fn reports() -> Result<(), String> {
    for (report, status, sent) in [(0xFFFF, 0x86EF, 0), (0x0100, 0xA000, 14), (0x00CF, 0xA0CF, 14), (0x0400, 0x8400, 0), (0x0200, 0x8200, 0), (0xF910, 0xA000, 14)] {
        let mut rig = Rig::new();
        rig.transmit(0x200, 0x8000, NONE);
        rig.start(0x200);
        rig.turns(1);
        same!(rig.chip.turn(report), Answer { length: sent, ..EDGE });
        same!(rig.word(0x200), status);
    }
    let mut rig = Rig::new();
    rig.transmit(0x200, 0x8000, 0x400);
    rig.tbd(0x400, 1, NONE, 0x800);
    rig.start(0x200);
    rig.turns(2);
    same!(rig.chip.turn(0xFFFF), EDGE);
    same!(rig.word(0x200), 0x8100);
    Ok(())
}

fn tdr_dump_diagnose() -> Result<(), String> {
    let mut rig = Rig::new();
    for (kind, status, word) in [(5, 0xA000, 0x8000), (6, 0x8000, 0x1234), (7, 0xA000, 0x1234), (0, 0xA000, 0x1234)] {
        same!(rig.one(0x200, kind, &[0x34, 0x12]), status);
        same!(rig.word(0x206), word);
    }
    Ok(())
}

// ---- Arrival ----

/// CRCERRS, ALNERRS, RSCERRS, OVRNERRS
fn counters(rig: &Rig) -> [u16; 4] {
    std::array::from_fn(|i| rig.word(SCB + 8 + 2 * i))
}

fn arrival_order() -> Result<(), String> {
    let mut rig = Rig::new();
    rig.hear(&frame(46), 1);
    same!(counters(&rig), [0, 0, 0, 0]);
    let mut rig = Rig::ready();
    for verdict in [1, 2, 200, u32::MAX] {
        rig.hear(&frame(46), verdict);
    }
    same!((counters(&rig), rig.held()), ([1, 3, 0, 0], false));
    rig.hear(&frame(45), 1);
    rig.hear(&frame(0)[..13], 1);
    same!(counters(&rig), [1, 3, 0, 0]);
    rig.hear(&frame(46), 0);
    rig.hear(&frame(46), 1);
    rig.hear(&frame(10), 2);
    same!(counters(&rig), [1, 3, 0, 2]);
    // No Resources: counters, nothing held.
    let mut rig = Rig::saving(64);
    rig.fd(0x300, 0x8000, 0x320, NONE);
    rig.hear(&frame(46), 1);
    same!((counters(&rig), rig.held()), ([1, 0, 0, 0], true));
    rig.rest();
    same!((rig.scb(), rig.word(0x300), counters(&rig)), (0x5020, 0x8A00, [1, 0, 0, 0]));
    for (data, verdict) in [(46, 0), (46, 1), (46, 2), (45, 0), (45, 1)] {
        rig.hear(&frame(data), verdict);
        same!(rig.held(), false);
    }
    same!(counters(&rig), [2, 1, 1, 0]);
    Ok(())
}

fn arrival_minimum() -> Result<(), String> {
    for (minimum, data, short) in [(64, 46, false), (64, 45, true), (18, 0, false), (19, 0, true), (0, 0, false), (255, 236, true), (255, 237, false)] {
        let mut rig = Rig::saving(minimum);
        rig.hear(&frame(data), 0);
        same!(rig.chip.device.held().map(|held| held.short), Some(short));
    }
    Ok(())
}

fn match_rules() -> Result<(), String> {
    let to = |address| to(address, 60);
    // The own address is six FFh after reset: broadcast disabled drops it, listed or not.
    let mut rig = Rig::ready();
    rig.configure(&[9, 0, 0, 6, 0, 0, 0, 0, 2]);
    rig.hear(&to([0xFF; 6]), 0);
    same!(rig.held(), false);
    rig.one(0x200, 3, &[6, 0, 0xFF, 0xFF, 0xFF, 0xFF, 0xFF, 0xFF]);
    rig.hear(&to([0xFF; 6]), 0);
    same!(rig.held(), false);
    // An own address with its low bit set matches though its bit is clear.
    rig.one(0x200, 1, &[1, 2, 3, 4, 5, 7]);
    same!(rig.chip.device.filter >> hash(&[1, 2, 3, 4, 5, 7]) & 1, 0);
    rig.hear(&to([1, 2, 3, 4, 5, 7]), 0);
    same!(rig.held(), true);
    // Listed: only with the low bit set; another group of another bit is not.
    let mut rig = Rig::ready();
    rig.one(0x200, 3, &[12, 0, 2, 2, 2, 2, 2, 2, 3, 3, 3, 3, 3, 3]);
    rig.hear(&to([2; 6]), 0);
    same!(rig.held(), false);
    rig.hear(&to([3, 3, 3, 3, 3, 2]), 0);
    same!(rig.held(), false);
    rig.hear(&to([3; 6]), 0);
    same!(rig.held(), true);
    // Promiscuous: anything, a disabled broadcast too.
    for address in [[2; 6], [0xFF; 6]] {
        let mut rig = Rig::ready();
        rig.configure(&[9, 0, 0, 6, 0, 0, 0, 0, 3]);
        rig.hear(&to(address), 0);
        same!(rig.held(), true);
    }
    Ok(())
}

fn match_by_the_bit() -> Result<(), String> {
    // Of 01-00-00-00-00-00 to -7F exactly those pass that fall on a listed one's bit; a listed one without its low bit lets them in too.
    for listed in [[1, 0, 0, 0, 0, 9], [0, 0, 0, 0, 0, 0], [2, 3, 5, 7, 11, 13], [0xFF; 6]] {
        let mut passed = 0;
        for which in 0..128 {
            let mut rig = Rig::ready();
            rig.configure(&[9, 0, 0, 6, 0, 0, 0, 0, 2]);
            let mut bytes = vec![6, 0];
            bytes.extend(listed);
            rig.one(0x200, 3, &bytes);
            let mut heard = frame(46);
            heard[..6].copy_from_slice(&group(which));
            rig.hear(&heard, 0);
            same!((which, rig.held()), (which, hash(&group(which)) == hash(&listed)));
            passed += u32::from(rig.held());
        }
        same!(passed, 2);
    }
    Ok(())
}

fn settings_at_arrival() -> Result<(), String> {
    let mut rig = Rig::saving(64);
    rig.fd(0x300, 0, 0x320, 0x400);
    rig.rbd(0x400, 0x410, 0x800, 1);
    rig.rbd(0x410, NONE, 0x800, 1);
    rig.hear(&frame(46), 0);
    // Configure without save-bad, begun before the frame's end.
    rig.words(0x200, &[0, 0x8002, 0]);
    rig.bytes(0x206, &[12, 0, 0, 6, 0, 0, 0, 0, 0, 0, 255]);
    rig.start(0x200);
    rig.turns(4);
    same!((rig.chip.device.save_bad, rig.held()), (false, true));
    rig.rest();
    same!((rig.word(0x300), counters(&rig)), (0x8200, [0, 0, 1, 0]));
    same!(rig.scb() & 0x4000, 0x4000);
    Ok(())
}

// ---- Why a frame was dropped ----

/// What the RU may be doing when a frame arrives.
const STATES: [&str; 6] = ["before the first attention", "Idle", "Suspended", "No Resources", "Ready", "a frame held"];

/// In this state, with Configure's bytes 2 and 8 (but before the first attention) and a minimum of 64.
fn rig_in(state: &str, byte2: u8, byte8: u8) -> Rig {
    if state == "before the first attention" {
        return Rig::at(8192, 0, SCB as u16);
    }
    let mut rig = Rig::new();
    rig.one(0x200, 1, &[2, 0, 0, 0, 0, 1]);
    rig.configure(&[12, 0, byte2, 6, 0, 0, 0, 0, byte8, 0, 64]);
    if state == "Idle" {
        return rig;
    }
    rig.fd(0x300, 0x8000, 0x320, NONE);
    rig.words(SCB + 6, &[0x0300]);
    rig.command(0x0010);
    match state {
        "Suspended" => {
            rig.command(0x0030);
        }
        "No Resources" => {
            rig.hear(&to([2, 0, 0, 0, 0, 1], 60), 0);
            rig.rest();
            rig.words(SCB + 12, &[0]);
        }
        "a frame held" => {
            rig.hear(&to([2, 0, 0, 0, 0, 1], 60), 0);
        }
        _ => {}
    }
    rig
}

/// A frame of so many bytes to this address.
fn to(address: [u8; 6], length: usize) -> Vec<u8> {
    let mut frame = frame(46);
    frame[..6].copy_from_slice(&address);
    frame.resize(length, 0x77);
    frame
}

/// Of each kind of frame its length, whether it is a broadcast or another's, its verdict, and what is said in each of `STATES` with save-bad
/// clear and with save-bad set: too (f)ew bytes, (n)o match, (I)dle, (S)uspended, (b)ad, or nothing.
const SAID_BY_THE_ORDER: [(usize, bool, u32, &str, &str); 21] = [
    (0, true, 0, "ffffff", "ffffff"),
    (0, true, 1, "ffffff", "ffffff"),
    (5, false, 2, "ffffff", "ffffff"),
    (13, true, 0, "ffffff", "ffffff"),
    (13, true, 1, "ffffff", "ffffff"),
    (13, false, 0, "ffffff", "ffffff"),
    (13, false, 2, "ffffff", "ffffff"),
    (14, false, 0, "nnnnnn", "nnnnnn"),
    (14, false, 1, "nnnnnn", "nnnnnn"),
    (60, false, 0, "nnnnnn", "nnnnnn"),
    (60, false, 1, "nnnnnn", "nnnnnn"),
    (60, false, 2, "nnnnnn", "nnnnnn"),
    (14, true, 0, "IISbb.", "IISb.."),
    (59, true, 0, "IISbb.", "IISb.."),
    (59, true, 1, "IISbb.", "IISb.."),
    (59, true, 2, "IISbb.", "IISb.."),
    (60, true, 0, "IIS...", "IIS..."),
    (60, true, 1, "IISbb.", "IISb.."),
    (60, true, 2, "IISbb.", "IISb.."),
    (2048, true, 0, "IIS...", "IIS..."),
    (2048, true, u32::MAX, "IISbb.", "IISb.."),
];

fn reason_by_the_order() -> Result<(), String> {
    for (length, ours, verdict, clear, set) in SAID_BY_THE_ORDER {
        for (byte2, said) in [(0, clear), (0x80, set)] {
            for (state, letter) in STATES.into_iter().zip(said.chars()) {
                let answer = match letter {
                    'f' => dropped(Reason::TooFew),
                    'n' => dropped(Reason::NoMatch),
                    'I' => dropped(Reason::Idle),
                    'S' => dropped(Reason::Suspended),
                    'b' => dropped(Reason::Bad),
                    _ => QUIET,
                };
                let address = if ours { [0xFF; 6] } else { [2, 0, 0, 0, 0, 2] };
                let heard = rig_in(state, byte2, 0).hear(&to(address, length), verdict);
                same!((length, ours, verdict, byte2, state, heard), (length, ours, verdict, byte2, state, answer));
            }
        }
    }
    Ok(())
}

fn reason_by_the_match() -> Result<(), String> {
    // By byte 8 and the address: what a good frame is answered in Idle, Suspended and Ready. Promiscuous takes all, and still asks the unit.
    let (none, all) = ([dropped(Reason::NoMatch); 3], [dropped(Reason::Idle), dropped(Reason::Suspended), QUIET]);
    for (byte8, address, answers) in [
        (0, [2, 0, 0, 0, 0, 1], all),
        (0, [2, 0, 0, 0, 0, 3], none),
        (0, [1, 0, 0, 0, 0, 1], none),
        (0, [0xFF; 6], all),
        (2, [0xFF; 6], none),
        (2, [2, 0, 0, 0, 0, 1], all),
        (1, [2, 0, 0, 0, 0, 3], all),
        (1, [1, 0, 0, 0, 0, 1], all),
        (3, [0xFF; 6], all),
    ] {
        for (state, answer) in ["Idle", "Suspended", "Ready"].into_iter().zip(answers) {
            same!((byte8, address, rig_in(state, 0, byte8).hear(&to(address, 60), 0)), (byte8, address, answer));
        }
    }
    // Promiscuous asks for fourteen bytes and judges as ever.
    let mut rig = rig_in("Ready", 0, 1);
    same!(rig.hear(&to([4; 6], 13), 0), dropped(Reason::TooFew));
    same!((rig.hear(&to([4; 6], 59), 0), rig.hear(&to([4; 6], 60), 1)), (dropped(Reason::Bad), dropped(Reason::Bad)));
    same!((rig.hear(&to([4; 6], 60), 0), rig.held()), (QUIET, true));
    Ok(())
}

fn reason_beside_a_counter() -> Result<(), String> {
    // A bad frame that is not held is bad and not saved, counted or not; a counted one that is held, and a lost one, has no reason.
    let (bad, none) = (dropped(Reason::Bad), QUIET);
    for (state, byte2, length, verdict, answer, counted) in [
        ("Ready", 0, 60, 1, bad, [1, 0, 0, 0]),
        ("Ready", 0, 60, 2, bad, [0, 1, 0, 0]),
        ("Ready", 0, 59, 1, bad, [0; 4]),
        ("Ready", 0x80, 60, 1, none, [1, 0, 0, 0]),
        ("Ready", 0x80, 60, 2, none, [0, 1, 0, 0]),
        ("Ready", 0x80, 59, 1, none, [0; 4]),
        ("No Resources", 0, 60, 1, bad, [1, 0, 0, 0]),
        ("No Resources", 0x80, 60, 1, bad, [1, 0, 0, 0]),
        ("No Resources", 0, 60, 2, bad, [0, 1, 0, 0]),
        ("No Resources", 0x80, 60, 2, bad, [0, 1, 0, 0]),
        ("No Resources", 0, 59, 2, bad, [0; 4]),
        ("No Resources", 0x80, 59, 2, bad, [0; 4]),
        ("No Resources", 0, 60, 0, none, [0, 0, 1, 0]),
        ("No Resources", 0x80, 60, 0, none, [0, 0, 1, 0]),
        ("a frame held", 0, 60, 0, none, [0, 0, 0, 1]),
        ("a frame held", 0, 60, 1, none, [0, 0, 0, 1]),
        ("a frame held", 0x80, 59, 2, none, [0, 0, 0, 1]),
    ] {
        let mut rig = rig_in(state, byte2, 0);
        same!((state, rig.hear(&to([0xFF; 6], length), verdict), counters(&rig)), (state, answer, counted));
    }
    Ok(())
}

fn reason_told_once() -> Result<(), String> {
    // A reason is of its own call: what follows a dropped frame has none.
    let mut rig = rig_in("Ready", 0x80, 0);
    let few = dropped(Reason::TooFew);
    let drop = |rig: &mut Rig| rig.hear(&to([0xFF; 6], 13), 0);
    same!((drop(&mut rig), rig.chip.turn(0)), (few, QUIET));
    same!((drop(&mut rig), rig.chip.run(3, 0)), (few, (QUIET, 1)));
    same!((drop(&mut rig), rig.chip.run(0, 0)), (few, (QUIET, 0)));
    same!((drop(&mut rig), rig.command(0xF000)), (few, QUIET));
    same!((drop(&mut rig), rig.hear(&frame(45), 1)), (few, QUIET));
    same!((drop(&mut rig), rig.hear(&frame(46), 0)), (few, QUIET));
    same!((drop(&mut rig), rig.turns(1), rig.turns(1)), (few, QUIET, EDGE));
    same!((drop(&mut rig), rig.hear(&frame(46), 0)), (few, QUIET));
    same!((drop(&mut rig), rig.hear(&[0; 2049], 0)), (few, refusal(3)));
    same!((drop(&mut rig), rig.command(0x0080)), (few, QUIET));
    same!((drop(&mut rig), rig.chip.attention()), (few, EDGE));
    same!((drop(&mut rig), rig.chip.reset()), (few, QUIET));
    // A refused frame has none, whatever else is wrong with it.
    rig.chip.n = 8193;
    same!((drop(&mut rig), rig.hear(&to([4; 6], 60), 1), rig.hear(&frame(46), 0)), (refusal(1), refusal(1), refusal(1)));
    let mut fresh = Rig { chip: Chip::new(8192) };
    same!((drop(&mut fresh), fresh.hear(&to([4; 6], 60), 1), fresh.hear(&frame(46), 0)), (refusal(4), refusal(4), refusal(4)));
    Ok(())
}

// ---- Storing ----

fn storing_reads_whole() -> Result<(), String> {
    let mut rig = Rig::ready();
    rig.fd(0x300, 0, 0x320, 0x400);
    rig.rbd(0x400, 0x420, 0x400, 20);
    rig.rbd(0x420, NONE, 0x800, 100);
    let mut heard = frame(46);
    heard[14..].fill(0x77);
    rig.hear(&heard, 0);
    rig.rest();
    same!((rig.word(0x400), rig.word(0x402), rig.word(0x420)), (0x4014, 0x7777, 0xC01A));
    Ok(())
}

fn storing_size_zero() -> Result<(), String> {
    let mut rig = three_buffers([0x4000, 46, 1]);
    rig.words(0x400, &[0xFFFF]);
    rig.hear(&frame(46), 0);
    same!(rig.rest(), 4);
    same!((rig.word(0x400), rig.word(0x410)), (0x4000, 0xC02E));
    Ok(())
}

fn storing_exact_ends() -> Result<(), String> {
    // Data that ends just in an EL buffer is stored well; No Resources follows.
    let mut rig = three_buffers([0x8000 | 46, 20, 20]);
    rig.hear(&frame(46), 0);
    rig.rest();
    same!((rig.word(0x300), rig.scb(), rig.word(0x326), counters(&rig)), (0xA000, 0x5020, 0, [0; 4]));
    // In the 64th: Ready.
    let mut rig = three_buffers([1, 1, 1]);
    rig.rbd(0x400, 0x400, 0x900, 1);
    rig.hear(&frame(64), 0);
    same!((rig.rest(), rig.scb(), rig.word(0x326)), (66, 0x4040, 0x400));
    // FFFFh behind the data's end: Ready.
    let mut rig = three_buffers([46, 1, 1]);
    rig.rbd(0x400, NONE, 0x900, 46);
    rig.hear(&frame(46), 0);
    rig.rest();
    same!((rig.scb(), rig.word(0x326)), (0x4040, NONE));
    // 20, 20 for 46: no EOF where the buffers end.
    let mut rig = three_buffers([20, 0x8000 | 20, 20]);
    rig.hear(&frame(46), 0);
    rig.rest();
    same!((rig.word(0x410), rig.word(0x420)), (0x4014, 0));
    Ok(())
}

fn storing_no_data() -> Result<(), String> {
    let mut rig = Rig::saving(0);
    rig.fd(0x300, 0, 0x320, 0x400);
    rig.rbd(0x400, NONE, 0x800, 0x8000);
    rig.hear(&frame(0), 0);
    same!(rig.rest(), 2);
    same!((rig.word(0x300), rig.word(0x306), rig.word(0x326), rig.word(0x400)), (0xA000, NONE, 0x400, 0));
    // A ring of one keeps its first offset.
    let mut rig = Rig::saving(0);
    rig.fd(0x300, 0, 0x300, 0x400);
    rig.hear(&frame(0), 0);
    rig.rest();
    same!(rig.word(0x306), 0x400);
    Ok(())
}

fn storing_status_bits() -> Result<(), String> {
    for (data, verdict, first, status, counted) in [
        (46, 0, 0x400, 0xA000, [0, 0, 0, 0]),
        (45, 0, 0x400, 0x8080, [0, 0, 0, 0]),
        (45, 1, 0x400, 0x8880, [0, 0, 0, 0]),
        (45, 9, 0x400, 0x8480, [0, 0, 0, 0]),
        (46, 1, 0x400, 0x8800, [1, 0, 0, 0]),
        (46, 2, 0x400, 0x8400, [0, 1, 0, 0]),
        (46, 1, NONE, 0x8A00, [1, 0, 0, 0]),
        (46, 2, NONE, 0x8600, [0, 1, 0, 0]),
        (46, 0, NONE, 0x8200, [0, 0, 1, 0]),
        (45, 0, NONE, 0x8280, [0, 0, 0, 0]),
    ] {
        let mut rig = Rig::saving(64);
        rig.fd(0x300, 0, 0x320, first);
        rig.rbd(0x400, 0x410, 0x800, 100);
        rig.hear(&frame(data), verdict);
        rig.rest();
        same!((rig.word(0x300), counters(&rig)), (status, counted));
        same!(rig.scb(), if first == NONE { 0x5020 } else { 0x4040 });
        same!(rig.chip.memory[0x308..0x316].to_vec(), frame(0));
    }
    Ok(())
}

fn storing_not_kept() -> Result<(), String> {
    let mut rig = three_buffers([20, 0x8000 | 20, 20]);
    rig.hear(&frame(46), 0);
    rig.rest();
    same!((rig.word(0x300), rig.scb(), counters(&rig)), (0, 0x1020, [0, 0, 1, 0]));
    same!((rig.word(0x400), rig.word(0x410), rig.word(0x308)), (0x4014, 0x4014, 0));
    Ok(())
}

fn storing_rscerrs_follows() -> Result<(), String> {
    let mut rig = Rig::new();
    rig.words(SCB + 6, &[0x10C]);
    rig.words(0x112, &[NONE]);
    rig.command(0x0010);
    rig.hear(&frame(46), 0);
    rig.rest();
    same!(rig.word(0x10C), 1);
    let mut rig = Rig::saving(64);
    rig.command(0x1040);
    rig.words(SCB + 6, &[0xFC]);
    rig.command(0xF010);
    // The descriptor's +6 is SCB+2, which the attention cleared: its first buffer descriptor would lie at 0.
    rig.words(0x102, &[NONE]);
    let mut heard = frame(46);
    heard[8] = 3;
    heard[9] = 4;
    rig.hear(&heard, 0);
    rig.rest();
    same!(rig.word(0x10C), 0x0404);
    Ok(())
}

fn storing_suspends() -> Result<(), String> {
    let mut rig = three_buffers([46, 20, 20]);
    rig.fd(0x300, 0x4000, 0x320, 0x400);
    rig.hear(&frame(46), 0);
    rig.rest();
    same!((rig.scb(), rig.word(0x326)), (0x5010, 0x410));
    same!(rig.chip.device.ru, Ru::Suspended { next: 0x320 });
    // No Resources wins over S.
    let mut rig = three_buffers([46, 20, 20]);
    rig.fd(0x300, 0xC000, 0x320, 0x400);
    rig.hear(&frame(46), 0);
    rig.rest();
    same!(rig.scb(), 0x5020);
    Ok(())
}

fn storing_status_last() -> Result<(), String> {
    // The next descriptor's +6 is SCB+0.
    let mut rig = three_buffers([46, 20, 20]);
    rig.fd(0x300, 0, 0x00FA, 0x400);
    rig.hear(&frame(46), 0);
    rig.rest();
    same!(rig.scb(), 0x4040);
    Ok(())
}

fn storing_descriptor_kept() -> Result<(), String> {
    // EL, S and +6 hold from the begin on; the link is read at the end.
    let mut rig = three_buffers([46, 20, 20]);
    rig.hear(&frame(46), 0);
    rig.turns(1);
    rig.words(0x302, &[0xC000, 0x340, NONE]);
    rig.rest();
    same!((rig.scb(), rig.word(0x346), rig.word(0x326), rig.word(0x306)), (0x4040, 0x410, 0, NONE));
    Ok(())
}

// ---- Lengths and locations ----

/// Every length with both locations.
fn headers() -> impl Iterator<Item = Header> {
    (0..7).flat_map(|address| [false, true].map(|in_buffers| Header { address, in_buffers }))
}

/// Byte 3 of a Configure.
fn byte3(header: Header) -> u8 {
    header.address + if header.in_buffers { 8 } else { 0 }
}

const OWN: [u8; 6] = [0x20, 0x21, 0x22, 0x23, 0x24, 0x25];

/// The bytes of a Transmit block from +8 on, as six bytes and two.
const BLOCK: [u8; 8] = [0x10, 0x11, 0x12, 0x13, 0x14, 0x15, 0x16, 0x17];

impl Rig {
    /// Initialised, with this own address, then this length and location; promiscuous with length 0, as nothing is received otherwise.
    fn with(header: Header) -> Rig {
        let mut rig = Rig::new();
        rig.one(0x200, 1, &OWN);
        rig.configure(&[12, 0, 0, byte3(header), 0, 0, 0, 0, u8::from(header.address == 0), 0, 0]);
        rig
    }

    /// The same, Ready at a descriptor at 0300h that has old bytes from +8 on, with buffers of these sizes at 0800h, 0900h and so on.
    fn storing(header: Header, sizes: &[u16]) -> Rig {
        let mut rig = Rig::with(header);
        for (i, size) in sizes.iter().enumerate() {
            let at = 0x400 + 16 * i;
            rig.rbd(at, if i + 1 == sizes.len() { NONE } else { at as u16 + 16 }, 0x800 + 0x100 * i as u16, *size);
        }
        rig.fd(0x300, 0, 0x340, 0x400);
        rig.bytes(0x308, &[OLD; 24]);
        rig.words(SCB + 6, &[0x300]);
        rig.command(0x0010);
        rig
    }

    /// Begins a Transmit at 0200h with these descriptors at 0400h, EOF in the last; the data is at 1000h.
    fn send(&mut self, bits: u16, counts: &[u16]) {
        self.words(0x200, &[0, bits | 4, 0x0200, if counts.is_empty() { NONE } else { 0x400 }]);
        self.bytes(0x208, &BLOCK);
        let mut data = 0x1000;
        for (i, count) in counts.iter().enumerate() {
            let (at, last) = (0x400 + 8 * i, i + 1 == counts.len());
            self.tbd(at, *count | if last { 0x8000 } else { 0 }, at as u16 + 8, data);
            data += count;
        }
        self.chip.outgoing.fill(OLD);
        self.start(0x200);
    }
}

/// A frame of so many bytes that count up, to the own address.
fn to_own(length: usize) -> Vec<u8> {
    (0..length).map(|i| OWN[0].wrapping_add(i as u8)).collect()
}

fn header_sent_packed() -> Result<(), String> {
    // By hand: destination, own address, type, data.
    for (address, sent) in [
        (0, &[0x10, 0x11, 0xD0, 0xD1][..]),
        (1, &[0x10, 0x20, 0x11, 0x12, 0xD0, 0xD1]),
        (2, &[0x10, 0x11, 0x20, 0x21, 0x12, 0x13, 0xD0, 0xD1]),
        (6, &[0x10, 0x11, 0x12, 0x13, 0x14, 0x15, 0x20, 0x21, 0x22, 0x23, 0x24, 0x25, 0x16, 0x17, 0xD0, 0xD1]),
    ] {
        let mut rig = Rig::with(Header { address, in_buffers: false });
        rig.bytes(0x1000, &[0xD0, 0xD1]);
        rig.send(0x8000, &[2]);
        same!(rig.turns(3), Answer { length: sent.len() as u16, ..EDGE });
        same!(rig.chip.outgoing[..sent.len()].to_vec(), sent.to_vec());
    }
    Ok(())
}

fn header_sent() -> Result<(), String> {
    let data: Vec<u8> = (0xA0..0xA7).collect();
    for header in headers() {
        let length = usize::from(header.address);
        let before = match header.in_buffers {
            false => [&BLOCK[..length], &OWN[..length], &BLOCK[length..length + 2]].concat(),
            true => Vec::new(),
        };
        for counts in [&[][..], &[7], &[3, 4], &[0, 1, 6]] {
            let mut rig = Rig::with(header);
            rig.bytes(0x1000, &data);
            rig.send(0x8000, counts);
            let sent = [&before[..], if counts.is_empty() { &[] } else { &data }].concat();
            same!((rig.rest(), rig.word(0x200)), (2 + counts.len(), 0xA000));
            same!(rig.chip.outgoing[sent.len()..].iter().all(|byte| *byte == OLD), true);
            same!(rig.chip.outgoing[..sent.len()].to_vec(), sent);
        }
    }
    Ok(())
}

fn header_limits() -> Result<(), String> {
    for header in headers() {
        let most = AREA as u16 - header.apart();
        for (counts, sent) in [(&[most][..], true), (&[most + 1], false), (&[1, most - 1], true), (&[1, most], false), (&[most, 0], true)] {
            let mut rig = Rig::with(header);
            rig.chip.memory[0x1000..0x1900].fill(0x77);
            rig.send(0x8000, counts);
            same!(rig.turns(2 + counts.len()), Answer { length: if sent { 2048 } else { 0 }, ..EDGE });
            same!((rig.word(0x200), rig.chip.outgoing[AREA - 1]), if sent { (0xA000, 0x77) } else { (0x8100, OLD) });
        }
    }
    Ok(())
}

fn header_no_bytes() -> Result<(), String> {
    let header = Header { address: 2, in_buffers: true };
    for counts in [&[][..], &[0], &[0, 0]] {
        for (report, status) in [(0, 0xA000), (0x00CF, 0xA0CF), (0x0020, 0x8020)] {
            let mut rig = Rig::with(header);
            rig.send(0x8000, counts);
            rig.turns(1 + counts.len());
            same!((rig.chip.turn(report), rig.word(0x200)), (EDGE, status));
            same!(rig.chip.outgoing.iter().all(|byte| *byte == OLD), true);
        }
    }
    Ok(())
}

fn header_no_bytes_in_a_run() -> Result<(), String> {
    // A Transmit that raises nothing, linked to itself: of no bytes it ends no run, of one byte it does.
    let header = Header { address: 6, in_buffers: true };
    for (counts, answer) in [(&[][..], (QUIET, 20)), (&[0], (QUIET, 20)), (&[1], (Answer { length: 1, ..QUIET }, 3))] {
        let mut rig = Rig::with(header);
        rig.send(0, counts);
        same!(rig.chip.run(20, 0), answer);
    }
    // With I it ends one by its edge.
    let mut rig = Rig::with(header);
    rig.send(0x2000, &[]);
    same!(rig.chip.run(20, 0), (EDGE, 2));
    Ok(())
}

fn header_stored() -> Result<(), String> {
    for header in headers() {
        let apart = usize::from(header.apart());
        let heard = to_own(usize::from(header.bytes()) + 9);
        let data = &heard[apart..];
        for sizes in [&[100][..], &[3, 100], &[1, 0, 2, 100]] {
            let mut rig = Rig::storing(header, sizes);
            same!((rig.hear(&heard, 0), rig.rest()), (QUIET, 2 + sizes.len()));
            same!((rig.word(0x300), rig.word(0x306), rig.word(0x346), rig.scb()), (0xA000, 0x400, NONE, 0x4040));
            same!(rig.chip.memory[0x308..0x308 + apart].to_vec(), heard[..apart].to_vec());
            same!(rig.chip.memory[0x308 + apart..0x320].iter().all(|byte| *byte == OLD), true);
            let mut done = 0;
            for (i, size) in sizes.iter().enumerate() {
                let count = usize::from(*size).min(data.len() - done);
                let end = if i + 1 == sizes.len() { 0xC000 } else { 0x4000 };
                same!(rig.word(0x400 + 16 * i), end | count as u16);
                same!(rig.chip.memory[0x800 + 0x100 * i..][..count].to_vec(), data[done..done + count].to_vec());
                same!(rig.chip.memory[0x800 + 0x100 * i + count], 0);
                done += count;
            }
            same!(done, data.len());
        }
    }
    Ok(())
}

fn header_too_few() -> Result<(), String> {
    for header in headers() {
        let bytes = usize::from(header.bytes());
        let mut rig = Rig::storing(header, &[100]);
        for length in 0..bytes {
            same!((header, length, rig.hear(&to_own(length), 0)), (header, length, dropped(Reason::TooFew)));
        }
        for length in [bytes, bytes + 1] {
            let mut rig = Rig::storing(header, &[100]);
            same!((rig.hear(&to_own(length), 0), rig.held()), (QUIET, true));
        }
    }
    Ok(())
}

fn header_no_data() -> Result<(), String> {
    for header in headers() {
        let bytes = header.bytes();
        let mut rig = Rig::storing(header, &[100]);
        rig.hear(&to_own(bytes.into()), 0);
        let turns = rig.rest();
        if header.in_buffers {
            same!((turns, rig.word(0x306), rig.word(0x346), rig.word(0x400)), (3, 0x400, NONE, 0xC000 | bytes));
        } else {
            same!((turns, rig.word(0x306), rig.word(0x346), rig.word(0x400)), (2, NONE, 0x400, 0));
        }
    }
    Ok(())
}

/// A frame of this length, stored through three buffers in at most five turns, with another header from this turn on.
fn stored_with(header: Header, length: usize, other: Header, turn: usize) -> Rig {
    let mut rig = Rig::storing(header, &[2, 1, 100]);
    rig.hear(&to_own(length), 0);
    for i in 0..5 {
        if i == turn {
            rig.chip.device.header = other;
        }
        rig.turns(1);
    }
    rig.chip.device.header = header;
    rig
}

fn header_held_through_configure() -> Result<(), String> {
    for header in headers() {
        for other in headers() {
            // Some data; no data by its own header; no data by the other.
            for length in [header.bytes() + 9, header.bytes(), other.bytes().max(header.bytes())].map(usize::from) {
                let alone = stored_with(header, length, header, 0);
                same!((alone.word(0x300), alone.held()), (0xA000, false));
                for turn in 0..5 {
                    let rig = stored_with(header, length, other, turn);
                    same!((header, other, length, turn, rig.chip.memory == alone.chip.memory), (header, other, length, turn, true));
                    same!(rig.chip.device == alone.chip.device, true);
                }
            }
        }
    }
    // By a Configure itself, begun before the frame and ended behind its begin.
    let (two, six) = (Header { address: 2, in_buffers: false }, Header { address: 6, in_buffers: true });
    let mut rig = Rig::storing(two, &[100]);
    rig.words(0x200, &[0, 0x8002, 0]);
    rig.bytes(0x206, &[4, 0, 0, byte3(six)]);
    rig.start(0x200);
    rig.turns(1);
    rig.hear(&to_own(9), 0);
    rig.rest();
    same!((rig.chip.device.header, rig.word(0x200), rig.word(0x300), rig.word(0x400)), (six, 0xA000, 0xA000, 0xC003));
    same!(rig.chip.memory[0x308..0x310].to_vec(), vec![0x20, 0x21, 0x22, 0x23, 0x24, 0x25, OLD, OLD]);
    same!(rig.chip.memory[0x800..0x804].to_vec(), vec![0x26, 0x27, 0x28, 0]);
    Ok(())
}

fn header_own() -> Result<(), String> {
    // Of the own address the bytes up to the length count, and all of those.
    for header in headers().filter(|header| header.address > 0) {
        for byte in 0..6 {
            let mut rig = Rig::storing(header, &[100]);
            let mut heard = to_own(14);
            heard[byte] ^= 0x80;
            let answer = if byte < usize::from(header.address) { dropped(Reason::NoMatch) } else { QUIET };
            same!((header, byte, rig.hear(&heard, 0)), (header, byte, answer));
        }
    }
    Ok(())
}

fn header_broadcast() -> Result<(), String> {
    for header in headers().filter(|header| header.address > 0) {
        let length = usize::from(header.address);
        let heard = [&[0xFF; 6][..length], &[0; 14]].concat();
        let nearly = [&[0xFF; 6][..length - 1], &[0xFE; 15]].concat();
        let mut rig = Rig::storing(header, &[100]);
        same!((rig.hear(&nearly, 0), rig.hear(&heard, 0)), (dropped(Reason::NoMatch), QUIET));
        // Disabled, it is dropped, though the own address begins with as many FFh and the bit of all of them is set.
        let mut rig = Rig::storing(header, &[100]);
        rig.one(0x200, 1, &[0xFF, 0xFF, 0xFF, 0xFF, 0xFF, 0xFF]);
        rig.one(0x200, 3, &[&[header.address, 0], &[0xFF; 6][..length]].concat());
        rig.configure(&[9, 0, 0, byte3(header), 0, 0, 0, 0, 2]);
        same!((rig.chip.device.filter, rig.hear(&heard, 0)), (1 << hash(&[0xFF; 6][..length]), dropped(Reason::NoMatch)));
    }
    Ok(())
}

fn header_groups() -> Result<(), String> {
    let bytes: Vec<u8> = (0..60).map(|i| 7 * i + 1).collect();
    for header in headers() {
        let length = usize::from(header.address);
        for count in [0, 1, 2, 5, 6, 7, 12, 30, 60] {
            let mut rig = Rig::with(header);
            rig.chip.device.filter = u64::MAX;
            same!(rig.one(0x200, 3, &[&[count, 0], &bytes[..]].concat()), 0xA000);
            let listed = bytes[..usize::from(count)].chunks_exact(length.max(1)).filter(|_| length > 0);
            same!((length, count, rig.chip.device.filter), (length, count, listed.fold(0, |filter, one| filter | 1 << hash(one))));
        }
    }
    // By hand: 01-02 falls on 36 and 01-03 on 59. What follows the address does not count.
    for (heard, answer) in [([1, 2, 9, 9, 9, 9], QUIET), ([1, 3, 9, 9, 9, 9], dropped(Reason::NoMatch)), ([0, 2, 9, 9, 9, 9], dropped(Reason::NoMatch))] {
        let mut rig = Rig::storing(Header { address: 2, in_buffers: true }, &[100]);
        rig.one(0x200, 3, &[3, 0, 1, 2, 1]);
        same!((rig.chip.device.filter, rig.hear(&heard, 0)), (1 << 36, answer));
    }
    Ok(())
}

fn header_length_0() -> Result<(), String> {
    // Nothing is received but by promiscuous mode: no broadcast, no own address, no group.
    for in_buffers in [false, true] {
        let header = Header { address: 0, in_buffers };
        for (byte8, answer) in [(0, dropped(Reason::NoMatch)), (2, dropped(Reason::NoMatch)), (1, QUIET), (3, QUIET)] {
            for heard in [to_own(60), vec![0xFF; 60], vec![0x01; 60], vec![0; 2], vec![0xFF; 2048]] {
                let mut rig = Rig::storing(header, &[100]);
                rig.chip.device.filter = u64::MAX;
                rig.configure(&[9, 0, 0, byte3(header), 0, 0, 0, 0, byte8]);
                same!((byte8, rig.hear(&heard, 0)), (byte8, answer));
            }
        }
    }
    Ok(())
}

fn header_kept() -> Result<(), String> {
    // The own address keeps six bytes and the filter its bits, whatever lengths come between.
    for header in headers() {
        let mut rig = Rig::with(header);
        rig.one(0x200, 1, &[1, 2, 3, 4, 5, 6]);
        rig.chip.device.filter = 0x8000_0000_0000_0021;
        for byte in [0, 9, 2, 5, 6, 1, 0x0E] {
            same!(rig.configure(&[4, 0, 0, byte]), 0xA000);
            same!((rig.chip.device.own, rig.chip.device.filter), ([1, 2, 3, 4, 5, 6], 0x8000_0000_0000_0021));
        }
    }
    Ok(())
}

fn header_minimum() -> Result<(), String> {
    // Bytes plus four below the minimum, whatever the header.
    for header in headers() {
        for (length, answer) in [(59, dropped(Reason::Bad)), (60, QUIET)] {
            let mut rig = Rig::storing(header, &[100]);
            rig.chip.device.minimum = 64;
            same!((header, length, rig.hear(&to_own(length), 0)), (header, length, answer));
        }
    }
    Ok(())
}

fn header_reset() -> Result<(), String> {
    let mut rig = Rig::with(Header { address: 0, in_buffers: true });
    rig.command(0x0080);
    same!(rig.chip.device.header, Header { address: 6, in_buffers: false });
    let mut rig = Rig::with(Header { address: 3, in_buffers: true });
    rig.chip.reset();
    same!(rig.chip.device.header, Header { address: 6, in_buffers: false });
    Ok(())
}

// ---- The list's forms ----

/// The answers, and the fault.
fn both(text: &str) -> (String, String) {
    let (mut out, mut errors) = (Vec::new(), Vec::new());
    list::run(text.as_bytes(), &mut out, &mut errors).expect("a vector takes everything");
    let text = |said| String::from_utf8(said).expect("what is printed is text");
    (text(out), text(errors))
}

fn printed(text: &str) -> String {
    let (out, errors) = both(text);
    out + &errors
}

fn list_example() -> Result<(), String> {
    let list = "# initialise: SCP's pointer at FFFCh, ISCP at 20h, SCB at 30h
    size 65536
    words memory FFFCh 20h 0
    words memory 20h 1 30h 0 0
    reset
    attention
    look memory 30h 2";
    same!(printed(list), "0 0 0\n0 0 1\n0030: A000 0000\n");
    Ok(())
}

fn list_forms() -> Result<(), String> {
    same!(printed("attention\nturn 2\narrival 0\narrival 7 2049x00\nsize 0\nturn\nreset\n"), "4 0 0\n4 0 0\n4 0 0\n4 0 0\n3 0 0\n1 0 0\n0 0 0\n");
    same!(printed("bytes holding 10h 3x0a fF00\nshow holding 0fh 18#x\nlook holding 16 1\nshow holding 0 0"), "000F: 00 0A 0A 0A FF 00 00 00 00 00 00 00 00 00 00 00\n001F: 00 00\n0010: 0A0A\n");
    same!(printed("\n \t\n#\nsay\nsay  a  b # c\n say x\n"), "\na  b \nx\n");
    same!(printed("run 0\nrun 9 FFFFh\nreset\nrun 0\nrun 65535\nrun 1 1\nsize 1\nrun 2"), "4 0 0\n4 0 0\n0 0 0\n0 0 0\n0 0 0 1\n0 0 0 1\n1 0 0\n");
    same!(printed("interrupt\nreset\nattention\ninterrupt"), "interrupt low\n0 0 0\n0 0 1\ninterrupt high\n");
    same!(printed("show memory 65535 1\nshow outgoing 2047 1\nwords memory 65534 65535\nlook memory FFFEh 1\nbytes memory 0\nturn 0"), "FFFF: 00\n07FF: 00\nFFFE: FFFF\n");
    Ok(())
}

fn list_reasons() -> Result<(), String> {
    let before = "size 8192\nwords memory 1FFCh 40h 0\nwords memory 40h 1 100h 0 0\nreset
    arrival 1 13x00\narrival 0 14x00\narrival 1 14xFF\nattention\n";
    same!(printed(before), "0 0 0\n0 0 0 too-few\n0 0 0 no-match\n0 0 0 idle\n0 0 1\n");
    let ready = format!("{before}words memory 102h F010h\nattention\narrival 0 14xFF\narrival 2 60xFF\nlook memory 108h 4\nrun 9\n");
    let said = "0 0 0\n0 0 0 bad\n0 0 0 bad\n0108: 0000 0001 0000 0000\n0 0 0 1\n";
    same!(printed(&ready), printed(before) + said);
    same!(printed(&format!("{ready}words memory 102h 30h\nattention\narrival 1 14xFF\n")), printed(&ready) + "0 0 1\n0 0 0 suspended\n");
    same!(printed(&format!("{ready}arrival 0 60xFF\narrival 1 14xFF\narrival 0 2049xFF\n")), printed(&ready) + "0 0 0\n0 0 0\n3 0 0\n");
    Ok(())
}

fn list_bad_input() -> Result<(), String> {
    for (line, column, expected) in [
        ("  sizes 5", 3, "a line's first word"),
        ("size", 5, "a number"),
        ("size  # 5", 5, "a number"),
        ("size 65537", 6, "a number up to 65536"),
        ("size 4294967296", 6, "a number"),
        ("size 1g", 6, "a number"),
        ("size h", 6, "a number"),
        ("size 8192 x", 11, "the end of the line"),
        ("reset now", 7, "the end of the line"),
        ("turn 65536", 6, "a number up to 65535"),
        ("turn 1 10000h", 8, "a number up to 65535"),
        ("turn 1 2 3", 10, "the end of the line"),
        ("run", 4, "a number"),
        ("run  # 5", 4, "a number"),
        ("run on", 5, "a number"),
        ("run 65536", 5, "a number up to 65535"),
        ("run 1 65536", 7, "a number up to 65535"),
        ("run 1 2 3", 9, "the end of the line"),
        ("runs 1", 1, "a line's first word"),
        ("arrival", 8, "a number"),
        ("arrival 0 12 345", 14, "bytes"),
        ("arrival 0 x55", 11, "bytes"),
        ("arrival 0 3x5", 11, "bytes"),
        ("bytes", 6, "an area"),
        ("bytes record 0", 7, "an area"),
        ("bytes memory", 13, "a number"),
        ("bytes memory 65536", 14, "a place in the area"),
        ("bytes holding 2048", 15, "a place in the area"),
        ("bytes memory 65535 1234", 14, "room in the area"),
        ("bytes memory 65535 1234 5", 25, "bytes"),
        ("words memory 65535 1", 14, "room in the area"),
        ("words memory 0 65536", 16, "a number up to 65535"),
        ("show memory 0", 14, "a number"),
        ("show outgoing 1 2048", 15, "room in the area"),
        ("look outgoing 1 1024 3", 22, "the end of the line"),
    ] {
        let fault = format!("line 2, column {column}: expected {expected}\n");
        same!(both(&format!("interrupt\n{line}\ninterrupt\n")), ("interrupt low\n".to_string(), fault));
    }
    Ok(())
}
