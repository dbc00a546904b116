//! Makes random lists of lines and what must be printed for them. A list is made while the model runs it, so that the lines can aim at the
//! chip's present state. Everything follows from the seed and the number of calls.

use crate::chip::{hash, Cu, Device, Header, Ru, Send, Store, Wrote, AREA, NONE};
use crate::list::{Replay, MEMORY};
use std::io::{self, Write};

/// splitmix64
struct Random(u64);

impl Random {
    fn next(&mut self) -> u64 {
        self.0 = self.0.wrapping_add(0x9E37_79B9_7F4A_7C15);
        let mut z = self.0;
        z = (z ^ z >> 30).wrapping_mul(0xBF58_476D_1CE4_E5B9);
        z = (z ^ z >> 27).wrapping_mul(0x94D0_49BB_1331_11EB);
        z ^ z >> 31
    }

    fn below(&mut self, bound: usize) -> usize {
        ((self.next() >> 32) * bound as u64 >> 32) as usize
    }

    /// True in so many cases of a hundred.
    fn chance(&mut self, percent: usize) -> bool {
        self.below(100) < percent
    }

    fn pick<T: Copy>(&mut self, of: &[T]) -> T {
        of[self.below(of.len())]
    }

    fn byte(&mut self) -> u8 {
        self.next() as u8
    }

    fn word(&mut self) -> u16 {
        self.next() as u16
    }
}

/// How a scene is set.
#[derive(Default)]
struct Scene {
    /// Percentages: pieces laid over others; alterations before a call; attentions with any codes.
    overlap: usize,
    alter: usize,
    wild: usize,
    /// Where the next piece goes, and where those before it went.
    free: usize,
    pieces: Vec<usize>,
    /// Working turns since a list or a receive area was started.
    stale: usize,
}

/// What a Configure says of all that the chip keeps.
#[derive(Clone, Copy)]
struct Settings {
    save_bad: bool,
    header: Header,
    byte8: u8,
    minimum: u8,
}

impl Settings {
    /// The block's bytes from +6 on.
    fn bytes(self) -> [u8; 12] {
        [12, 0, if self.save_bad { 0x80 } else { 0 }, byte3(self.header), 0, 0, 0, 0, self.byte8, 0, self.minimum, 0]
    }
}

/// "Byte 3: bits 2-0 address length, 3 address location"
fn byte3(header: Header) -> u8 {
    header.address | if header.in_buffers { 0x08 } else { 0 }
}

pub struct Generator<'a> {
    random: Random,
    replay: Replay,
    list: &'a mut dyn Write,
    expect: &'a mut dyn Write,
    calls: u64,
    scene: Scene,
}

/// Makes the list of a seed, of about so many calls. The model that ran it comes back.
pub fn generate(seed: u64, calls: u64, list: &mut dyn Write, expect: &mut dyn Write) -> io::Result<Replay> {
    let mut generator = Generator {
        random: Random(seed ^ 0x8258_6000),
        replay: Replay::new(),
        list,
        expect,
        calls: 0,
        scene: Scene::default(),
    };
    generator.line(format!("# seed {seed}, about {calls} calls"))?;
    generator.before_reset()?;
    let mut scenes = 0;
    while generator.calls < calls {
        scenes += 1;
        generator.line(format!("say scene {scenes}"))?;
        let most = (calls - generator.calls).min(30 + generator.random.below(130) as u64);
        generator.play(most)?;
    }
    generator.line(format!("show memory 0 {MEMORY}"))?;
    generator.line("show holding 0 2048".into())?;
    generator.line("show outgoing 0 2048".into())?;
    generator.list.flush()?;
    generator.expect.flush()?;
    Ok(generator.replay)
}

/// A short list with a bad line in it: a good line with a character or a word too many, too few or another.
pub fn bad(seed: u64) -> Vec<u8> {
    let mut random = Random(seed ^ 0x0BAD_0BAD);
    let good = [
        "size 65536", "size 2000h", "reset", "attention", "arrival 0 FFFFFFFFFFFF 46x55 0102", "arrival 4294967295", "turn", "turn 3",
        "turn 2 FFFFh", "run 7", "run 65535 FFFFh", "bytes memory 65534 0102", "bytes holding 2047 1x7F", "words outgoing 07FEh 65535", "words memory 0 1 2h 3",
        "show memory 16 33", "look holding 10h 9", "interrupt", "say what # this", "show outgoing 2040 8 # all", "  look\tmemory 65534\t1  ",
    ];
    let odd = b" \thxX#0159afFG-+_.,:/@";
    loop {
        let mut list = Vec::new();
        for _ in 0..random.below(4) {
            list.extend(random.pick(&good).as_bytes());
            list.push(b'\n');
        }
        let mut line = random.pick(&good).as_bytes().to_vec();
        for _ in 0..1 + random.below(3) {
            let first = line.iter().position(|&byte| byte == b' ').map_or(0, |place| place + 1);
            let first = if random.chance(75) { first } else { 0 };
            let at = first + random.below(line.len() + 1 - first);
            let start = line[..at].iter().rposition(|&byte| byte == b' ').map_or(0, |place| place + 1);
            match random.below(6) {
                0 | 1 => line.insert(at, random.pick(odd)),
                2 if at < line.len() => line[at] = random.pick(odd),
                3 if at < line.len() => {
                    line.remove(at);
                }
                4 => line.truncate(start),
                _ => {
                    let words: [&[u8]; 8] = [b"65536", b"65537", b"4294967296", b"0 ", b"memory ", b"2048 ", b" #", b"FFFFh "];
                    let word = random.pick(&words);
                    line.splice(at..at, word.iter().copied());
                }
            }
        }
        list.extend(line);
        let end = list.len();
        list.extend(b"\ninterrupt\n");
        if random.chance(20) {
            list.truncate(end);
        }
        // Counts beyond all areas are no part of this.
        if list.split(|byte| !byte.is_ascii_alphanumeric()).any(|word| word.iter().take_while(|byte| byte.is_ascii_digit()).count() > 7 && word.contains(&b'x')) {
            continue;
        }
        let ends_badly = crate::list::run(&list, &mut io::sink(), &mut io::sink()).map_or(false, |(bad, _)| bad);
        if ends_badly {
            return list;
        }
    }
}

fn hex(bytes: &[u8]) -> String {
    bytes.iter().map(|byte| format!("{byte:02X}")).collect()
}

/// A Transmit's failing end is next.
fn fails(device: &Device) -> bool {
    matches!(device.begun().map(|begun| begun.step), Some(Send::End { failed: true, .. }))
}

/// The end of a frame that ran out of buffers is next.
fn out(device: &Device) -> bool {
    matches!(device.held().and_then(|held| held.begun).map(|begun| begun.step), Some(Store::End { out: true, .. }))
}

impl Generator<'_> {
    // ---- Lines ----

    /// Adds a line to the list and what it prints to the output.
    fn line(&mut self, text: String) -> io::Result<()> {
        self.list.write_all(text.as_bytes())?;
        self.list.write_all(b"\n")?;
        match self.replay.line(text.as_bytes(), &mut *self.expect)? {
            Ok(calls) => self.calls += u64::from(calls),
            Err(bad) => panic!("the generator made a bad line: {}: {:?}", text, bad),
        }
        Ok(())
    }

    fn device(&self) -> &Device {
        &self.replay.chip.device
    }

    fn note(&self, what: &str) {
        self.replay.chip.note(what);
    }

    fn n(&self) -> usize {
        self.replay.chip.n
    }

    /// The address length in force, the header's bytes, and those of them that no buffer has.
    fn address_length(&self) -> usize {
        self.device().header.address.into()
    }

    fn header(&self) -> usize {
        self.device().header.bytes().into()
    }

    fn apart(&self) -> usize {
        self.device().header.apart().into()
    }

    /// A number in one of its forms.
    fn number(&mut self, value: usize) -> String {
        match self.random.below(8) {
            0 | 1 => format!("{value}"),
            2 => format!("{value:x}h"),
            3 => format!("0{value:X}h"),
            _ => format!("{value:X}h"),
        }
    }

    /// The host writes bytes to memory, on over its end.
    fn put(&mut self, at: usize, bytes: &[u8]) -> io::Result<()> {
        let n = self.n().max(1);
        let at = at % n;
        let here = bytes.len().min(n - at);
        let place = self.number(at);
        if here % 2 == 0 && here <= 64 && !self.random.chance(15) {
            let words = bytes[..here].chunks(2).map(|two| usize::from(u16::from_le_bytes([two[0], two[1]])));
            let words: Vec<usize> = words.collect();
            let words: Vec<String> = words.into_iter().map(|word| self.number(word)).collect();
            self.line(format!("words memory {place} {}", words.join(" ")))?;
        } else {
            self.line(format!("bytes memory {place} {}", hex(&bytes[..here])))?;
        }
        if here < bytes.len() { self.put(0, &bytes[here..]) } else { Ok(()) }
    }

    fn put_words(&mut self, at: usize, words: &[u16]) -> io::Result<()> {
        let bytes: Vec<u8> = words.iter().flat_map(|word| word.to_le_bytes()).collect();
        self.put(at, &bytes)
    }

    /// Shows a stretch of memory, on over its end.
    fn show(&mut self, at: usize, count: usize) -> io::Result<()> {
        let n = self.n();
        let (at, count) = (at % n, count.min(n));
        let here = count.min(n - at);
        if here % 2 == 0 && here <= 64 {
            self.line(format!("look memory {at:X}h {}", here / 2))?;
        } else {
            self.line(format!("show memory {at:X}h {here}"))?;
        }
        if here < count { self.show(0, count - here) } else { Ok(()) }
    }

    // ---- Places ----

    fn scb(&self, field: u32) -> usize {
        self.replay.chip.scb(field) as usize % self.n()
    }

    /// A place for a piece of so many bytes: a fresh one, or in a hostile scene near or over another.
    fn piece(&mut self, length: usize) -> usize {
        let n = self.n();
        let at = if self.random.chance(self.scene.overlap) {
            match self.random.below(8) {
                0 => self.random.below(n),
                1..=3 => (self.scb(0) + n + self.random.below(32) - 22) % n,
                _ if self.scene.pieces.is_empty() => self.random.below(n),
                _ => {
                    let near = self.random.below(self.scene.pieces.len());
                    (self.scene.pieces[near] + n + self.random.below(40) - 22) % n
                }
            }
        } else {
            let scb = self.scb(0);
            let ahead = (scb + n - self.scene.free) % n;
            if ahead < length || ahead > n - 16 {
                self.scene.free = (scb + 16) % n;
            }
            let at = self.scene.free;
            self.scene.free = (at + length + self.random.below(6)) % n;
            at
        };
        self.scene.pieces.push(at);
        at
    }

    /// One of the offsets of a place.
    fn offset(&mut self, at: usize) -> u16 {
        let n = self.n();
        let base = self.device().scb.map_or(0, |scb| scb.base) as usize % n;
        let low = (at + n - base) % n;
        let turns = self.random.below(65_536 / n);
        let offset = (low + turns * n) as u16;
        if offset == NONE { low as u16 } else { offset }
    }

    /// One of the real addresses of a place.
    fn real(&mut self, at: usize) -> u32 {
        let n = self.n();
        match self.random.below(3) {
            0 => at as u32,
            1 => (at + n * self.random.below((1 << 24) / n)) as u32,
            _ => (at + (1 << 24) - n) as u32,
        }
    }

    fn piece_offset(&mut self) -> u16 {
        if self.scene.pieces.is_empty() {
            return self.random.word();
        }
        let at = self.random.below(self.scene.pieces.len());
        let at = self.scene.pieces[at];
        self.offset(at)
    }

    /// Four bytes: a real address and a byte that is not used.
    fn real_bytes(&mut self, at: usize) -> [u8; 4] {
        let real = self.real(at).to_le_bytes();
        let spare = if self.random.chance(50) { 0 } else { self.random.byte() };
        [real[0], real[1], real[2], spare]
    }

    // ---- A scene ----

    /// Calls before the first reset.
    fn before_reset(&mut self) -> io::Result<()> {
        self.line("interrupt".into())?;
        for _ in 0..self.random.below(3) {
            let at = self.random.below(MEMORY - 64);
            let bytes: Vec<u8> = (0..64).map(|_| self.random.byte()).collect();
            self.put(at, &bytes)?;
        }
        for _ in 0..20 {
            if self.random.chance(25) {
                self.size()?;
            }
            match self.random.below(5) {
                0 => self.line("attention".into())?,
                1 => self.turn_line(1)?,
                2 => self.run_line()?,
                3 => self.overlong()?,
                _ => self.arrival()?,
            }
        }
        self.line("interrupt".into())
    }

    /// Any size, allowed or not.
    fn size(&mut self) -> io::Result<()> {
        let any = self.random.below(65_537);
        let n = self.random.pick(&[8192, 16_384, 32_768, 65_536, 8192, 0, 1, 2, 8191, 8193, 4096, 12_288, 49_152, 65_535, any]);
        self.line(format!("size {n}"))
    }

    fn allowed_size(&mut self) -> io::Result<()> {
        let n = self.random.pick(&[8192, 8192, 8192, 16_384, 32_768, 65_536]);
        let n = self.number(n);
        self.line(format!("size {n}"))
    }

    fn play(&mut self, calls: u64) -> io::Result<()> {
        let hostile = self.random.below(10);
        self.scene = Scene {
            overlap: [0, 0, 0, 0, 0, 0, 4, 10, 30, 70][hostile],
            alter: [0, 1, 2, 4, 8, 3, 3, 8, 15, 20][hostile],
            wild: self.random.pick(&[10, 20, 20, 40, 70]),
            free: self.random.below(8192),
            pieces: Vec::new(),
            stale: 0,
        };
        if self.random.chance(75) || !self.device().scb.is_some() {
            self.allowed_size()?;
            self.line("reset".into())?;
        }
        self.garnish()?;
        let end = self.calls + calls;
        let odd = if self.random.chance(40) { self.calls + self.random.below(calls as usize) as u64 } else { u64::MAX };
        let mut odd_done = false;
        while self.calls < end {
            if self.calls >= odd && !odd_done {
                odd_done = true;
                self.odd_size()?;
            }
            self.step()?;
        }
        if self.random.chance(20) {
            let n = self.n();
            self.line(format!("show memory 0 {n}"))?;
        }
        if self.random.chance(10) {
            self.line("show holding 0 2048".into())?;
        }
        if self.random.chance(10) {
            self.line("show outgoing 0 2048".into())?;
        }
        Ok(())
    }

    /// Something other than zeros in memory, and lines that do nothing.
    fn garnish(&mut self) -> io::Result<()> {
        let n = self.n();
        match self.random.below(6) {
            0 => {
                let (count, byte) = (n / 2 + self.random.below(n / 2), self.random.byte());
                let at = self.random.below(n - count + 1);
                self.line(format!("bytes memory {at} {count}x{byte:02X}"))?;
            }
            1 => self.line("bytes memory 0 65536x00".into())?,
            _ => {}
        }
        for _ in 0..2 {
            let at = self.random.below(n);
            let count = 40 + self.random.below(300);
            let bytes: Vec<u8> = (0..count).map(|_| self.random.byte()).collect();
            self.put(at, &bytes)?;
        }
        match self.random.below(8) {
            0 => self.line(String::new()),
            1 => self.line("\t # nothing but a comment".into()),
            2 => self.line("  say\ta scene begins # here".into()),
            3 => self.line("turn 0".into()),
            5 => self.line("run 0".into()),
            4 => self.line("show holding 2047 0".into()),
            _ => Ok(()),
        }
    }

    /// One call, and what goes with it.
    fn step(&mut self) -> io::Result<()> {
        if self.random.chance(self.scene.alter) {
            self.alter()?;
        }
        if self.device().scb.is_none() {
            return match self.random.below(10) {
                0 => self.turn(),
                1 | 2 => self.arrival(),
                _ => self.initialise(),
            };
        }
        if self.random.below(300) == 0 {
            self.line("reset".into())?;
            return self.observe();
        }
        if self.random.below(250) == 0 {
            self.note("size altered under a running chip");
            self.allowed_size()?;
        }
        match self.random.below(290) {
            0 => return self.long_send(),
            1 => return self.long_store(),
            2..=8 => return self.small_store(),
            9..=18 => return self.small_send(),
            19..=21 => return self.over_scb(),
            22..=27 => return self.crossing(),
            28..=33 => return self.filtering(),
            34..=37 => return self.end_send(),
            38..=40 => return self.end_store(),
            41 => return self.dropping(),
            42..=50 => return self.headers_sent(),
            51..=63 => return self.headers_held(),
            _ => {}
        }
        let device = self.device();
        let works = device.cu_works() || device.ru_works();
        let held = device.ru_works();
        let ready = matches!(device.ru, Ru::Ready { .. });
        let no_resources = matches!(device.ru, Ru::NoResources);
        let waiting = device.cu_name().contains("waits") || device.ru_name().contains("waits");
        let begun = device.begun().map_or(false, |begun| matches!(begun.step, Send::End { .. }));
        let failing = fails(device) || out(device);
        let fresh = device.ru_name() == "Ready, held";
        let storing = device.ru_name() == "Ready, begun";
        let roll = self.random.below(100);
        let (arrivals, attentions) = match (works, ready) {
            (true, true) if !held => (32, 18),
            (true, _) if waiting => (5, 44),
            (true, _) if fresh => (6, 40),
            (true, _) if failing => (4, 45),
            (true, _) if begun || storing => (4, 32),
            (true, _) => (if held { 7 } else if no_resources { 12 } else { 3 }, if self.scene.stale > 60 { 40 } else { 24 }),
            (false, true) => (72, 25),
            (false, false) => (if no_resources { 40 } else { 7 }, if no_resources { 57 } else { 90 }),
        };
        if roll < arrivals {
            self.arrival()
        } else if roll < arrivals + attentions {
            self.attention()
        } else {
            self.turn()
        }
    }

    // ---- One frame, closely watched ----

    /// Lays a list of one Configure.
    fn lay_configure(&mut self, settings: Settings) -> io::Result<()> {
        let block = self.piece(24);
        let offset = self.offset(block);
        self.put_words(block, &[0, 0x8002, 0])?;
        self.put(block + 6, &settings.bytes())?;
        self.put_words(self.scb(4), &[offset])
    }

    /// Starts one.
    fn start_configure(&mut self, settings: Settings) -> io::Result<()> {
        self.lay_configure(settings)?;
        self.command(0x0100)
    }

    /// A length and a location: mostly those after reset.
    fn some_header(&mut self) -> Header {
        Header { address: self.random.pick(&[6, 6, 6, 6, 2, 2, 0, 1, 3, 4, 5]), in_buffers: self.random.chance(35) }
    }

    /// Any length and location, each as often as the others.
    fn any_header(&mut self) -> Header {
        Header { address: self.random.below(7) as u8, in_buffers: self.random.chance(50) }
    }

    /// Byte 8 of a Configure: with length 0 mostly promiscuous, since nothing else is received.
    fn byte8(&mut self, header: Header, byte: u8) -> u8 {
        if header.address == 0 && self.random.chance(70) { byte | 1 } else { byte }
    }

    /// A frame, good or bad, into few buffers, with SUSPEND, S and other settings on its way.
    fn small_store(&mut self) -> io::Result<()> {
        self.command(0xF440)?;
        let (save_bad, header, minimum) = (self.random.chance(85), self.some_header(), self.random.pick(&[64, 64, 64, 40, 18]));
        let settings = Settings { save_bad, header, byte8: self.byte8(header, 0), minimum };
        self.start_configure(settings)?;
        self.line("turn 2".into())?;
        let descriptors = [self.piece(22), self.piece(22), self.piece(10), self.piece(10)];
        let offsets = descriptors.map(|at| self.offset(at));
        let bits = self.random.pick(&[0, 0x4000, 0x4000, 0x4000, 0x8000, 0xC000]);
        let first = if self.random.chance(25) { NONE } else { offsets[2] };
        self.put_words(descriptors[0], &[0, bits, offsets[1], first])?;
        for (i, next) in [(2, offsets[3]), (3, NONE)] {
            let size = self.random.pick(&[0, 1, 20, 30, 50]);
            let el = if self.random.chance(20) { 0x8000 } else { 0 };
            let data = self.piece(size);
            let real = self.real(data);
            self.put_words(descriptors[i], &[0, next, real as u16, (real >> 16) as u16, size as u16 | el])?;
        }
        self.put_words(self.scb(6), &[offsets[0]])?;
        self.command(0x0010)?;
        let length = self.header() + self.random.below(60);
        let to = self.sure();
        self.frame(to, length)?;
        for _ in 0..9 {
            match self.random.below(15) {
                0..=2 => self.command(0x0030)?,
                14 => self.attention()?,
                3 | 4 if !self.device().cu_works() => self.start_configure(Settings { save_bad: !save_bad, ..settings })?,
                5..=7 if self.device().ru_name().contains("waits") => self.attention()?,
                _ if self.device().ru_works() => self.turn()?,
                _ => break,
            }
        }
        self.show_scb()?;
        self.show(descriptors[0], 22)?;
        self.show(descriptors[1], 8)
    }

    /// One command, mostly a short Transmit, with SUSPEND on its way.
    fn small_send(&mut self) -> io::Result<()> {
        self.command(0xF400)?;
        let descriptor = self.piece(8);
        let size = self.random.below(30);
        let data = self.piece(size);
        let real = self.real_bytes(data);
        let first = if self.random.chance(50) { NONE } else { self.offset(descriptor) };
        self.put_words(descriptor, &[0x8000 | size as u16, NONE])?;
        self.put(descriptor + 4, &real)?;
        let (block, kind) = (self.piece(18), self.random.pick(&[4, 4, 4, 4, 4, 4, 4, 4, 0, 1, 5, 6, 7]));
        let bits = self.random.pick(&[0x8000, 0x4000, 0x4000, 0xE000, 0x6000, 0x2000, 0]);
        let link = self.piece_offset();
        self.put_words(block, &[self.calls as u16, bits | kind, link, first])?;
        let to = self.address();
        self.put(block + 8, &to)?;
        let offset = self.offset(block);
        self.put_words(self.scb(4), &[offset])?;
        self.command(0x0100)?;
        self.turn()?;
        for _ in 0..5 {
            if self.device().begun().is_none() {
                break;
            }
            let waits = self.device().cu_name().contains("waits");
            match self.random.below(10) {
                0..=2 if !waits => self.command(0x0300)?,
                0..=6 if waits => self.attention()?,
                _ => self.turn()?,
            }
        }
        self.show_scb()?;
        self.show(block, 16)
    }

    // ---- Copies at the end of memory, closely watched ----

    /// A place for so many bytes, two at least, at the end of memory: they end there, go one byte over it, begin at its last byte, or are
    /// cut anywhere.
    fn end_place(&mut self, length: usize) -> usize {
        let any = 1 + self.random.below(length);
        self.n() - self.random.pick(&[length, length - 1, 1, any])
    }

    /// A buffer of so many bytes there. It and the bytes beside it have any values, so that one too many or too few shows.
    fn end_buffer(&mut self, length: usize) -> io::Result<usize> {
        let at = self.end_place(length);
        let bytes = self.any_bytes(length + 4);
        self.put(at - 2, &bytes)?;
        Ok(at)
    }

    fn end_length(&mut self) -> usize {
        let most = self.random.pick(&[6, 30, 30, 500]);
        2 + self.random.below(most)
    }

    fn any_bytes(&mut self, count: usize) -> Vec<u8> {
        (0..count).map(|_| self.random.byte()).collect()
    }

    /// The turns of a command or two, or of a frame: one by one, or in a run.
    fn end_turns(&mut self) -> io::Result<()> {
        if self.random.chance(60) {
            let report = 1 << self.random.below(16);
            return self.line(format!("run 9 {report}"));
        }
        for _ in 0..6 {
            if self.device().cu_works() || self.device().ru_works() {
                self.turn_line(1)?;
            }
        }
        Ok(())
    }

    /// Out of memory: a Transmit's buffers, its header, or IA-Setup's address, which the Transmit behind it shows.
    fn end_send(&mut self) -> io::Result<()> {
        if self.device().cu_works() || self.device().ru_works() {
            self.command(0xF440)?;
        }
        let (begins, length) = match self.random.below(8) {
            0..=2 => {
                let (first, length) = self.end_chain()?;
                let block = self.piece(16);
                (self.plain_transmit(block, first)?, length)
            }
            3..=5 => {
                let address = self.address_length();
                let block = if self.random.chance(35) { self.end_place(address + 2) - 8 } else { self.end_place(2) - 8 - address };
                (self.plain_transmit(block, NONE)?, self.apart())
            }
            _ => (self.end_own()?, usize::from(Header::AFTER_RESET.bytes())),
        };
        self.put_words(self.scb(4), &[begins])?;
        self.command(0x0100)?;
        self.end_turns()?;
        self.show_scb()?;
        self.line(format!("show outgoing 0 {}", (length + 2).min(AREA)))
    }

    /// Lays an IA-Setup, and behind it a Configure and a Transmit that show all of the address; the offset of the first comes back.
    fn end_own(&mut self) -> io::Result<u16> {
        let (block, configure, setup) = (self.piece(16), self.piece(24), self.end_place(6) - 6);
        let (transmit, own, save_bad) = (self.plain_transmit(block, NONE)?, self.any_bytes(6), self.random.pick(&[0, 0x80]));
        self.put_words(configure, &[0, 2, transmit])?;
        self.put(configure + 6, &[4, 0, save_bad, byte3(Header::AFTER_RESET)])?;
        let link = self.offset(configure);
        self.put_words(setup, &[0, 1, link])?;
        self.put(setup + 6, &own)?;
        Ok(self.offset(setup))
    }

    /// Lays a Transmit with EL and any header; its offset comes back.
    fn plain_transmit(&mut self, block: usize, first: u16) -> io::Result<u16> {
        let (link, header) = (self.random.word(), self.any_bytes(8));
        self.put_words(block, &[0, 0x8004, link, first])?;
        self.put(block + 8, &header)?;
        Ok(self.offset(block))
    }

    /// Lays one to four descriptors with buffers at the end of memory; the offset of the first and the frame's length come back.
    fn end_chain(&mut self) -> io::Result<(u16, usize)> {
        // From the last to the first: none behind as many bytes as there may be or one more, or a few.
        let apart = self.apart();
        let sizes: Vec<usize> = match self.random.below(6) {
            0 => vec![0, AREA - apart + self.random.below(2)],
            _ => (0..1 + self.random.below(4)).map(|_| self.end_length()).collect(),
        };
        let (mut next, mut eof, mut length) = (NONE, 0x8000, apart);
        for size in sizes {
            let data = self.end_buffer(size.max(2))?;
            let (descriptor, real) = (self.piece(8), self.real_bytes(data));
            self.put_words(descriptor, &[eof | size as u16, next])?;
            self.put(descriptor + 4, &real)?;
            (next, eof, length) = (self.offset(descriptor), 0, length + size);
        }
        Ok((next, length))
    }

    /// Into memory: the data or the header of a frame that is not short.
    fn end_store(&mut self) -> io::Result<()> {
        if self.device().cu_works() || matches!(self.device().ru, Ru::Ready { .. }) {
            self.command(0xF440)?;
        }
        let (size, header, apart) = (self.end_length(), self.header(), self.apart());
        let least = usize::from(self.device().minimum).saturating_sub(4).max(header);
        let rest = least.saturating_sub(apart + size) + self.random.below(3);
        let other = self.piece(rest);
        let (descriptor, data) = if self.random.chance(70) {
            (self.piece(22), self.end_buffer(size)?)
        } else {
            (self.end_place(header) - 8, self.piece(size))
        };
        let first = self.end_buffers((data, size), (other, rest))?;
        let (offset, bits) = (self.offset(descriptor), self.random.pick(&[0, 0, 0x4000, 0x8000]));
        self.put_words(descriptor, &[0, bits, offset, first])?;
        self.put_words(self.scb(6), &[offset])?;
        self.command(0x0010)?;
        let address = self.address_length();
        let (to, behind) = (self.sure(), self.any_bytes(apart + size + rest - address));
        self.line(format!("arrival 0 {} {}", hex(&to[..address]), hex(&behind)))?;
        self.end_turns()?;
        self.show_scb()?;
        self.show(data + self.n() - 2, size + 4)?;
        self.show(descriptor, 24)
    }

    /// Lays the descriptors of two buffers, each a place and how many bytes it shall get. Of the first this is the size, of the second what is
    /// left: it may have room for more. The offset of the first comes back.
    fn end_buffers(&mut self, one: (usize, usize), other: (usize, usize)) -> io::Result<u16> {
        let ((first, size), (second, left)) = if self.random.chance(50) { (one, other) } else { (other, one) };
        let room = left + self.random.below(3);
        let next = self.plain_buffer(second, room, NONE)?;
        self.plain_buffer(first, size, next)
    }

    /// Lays a receive buffer descriptor; its offset comes back.
    fn plain_buffer(&mut self, data: usize, size: usize, next: u16) -> io::Result<u16> {
        let (descriptor, real) = (self.piece(10), self.real(data));
        self.put_words(descriptor, &[0, next, real as u16, (real >> 16) as u16, size as u16])?;
        Ok(self.offset(descriptor))
    }

    // ---- The address filter, closely watched ----

    /// An MC-Setup of any count, and groups behind it: the first that passes is held, and the SCB counts all others that do.
    fn filtering(&mut self) -> io::Result<()> {
        self.command(0xF440)?;
        let mut header = self.some_header();
        // A filter that is emptied by the length alone.
        if self.device().filter != 0 && self.random.chance(6) {
            header.address = 0;
        }
        let count = self.filter_count(header.address.into())?;
        let (first, block, descriptor) = (self.piece(24), self.piece(188), self.piece(22));
        let offsets = [first, block, descriptor].map(|at| self.offset(at));
        let broadcasts = self.random.pick(&[0, 0, 2]);
        let settings = Settings { save_bad: self.random.chance(66), header, byte8: broadcasts, minimum: 18 };
        self.put_words(first, &[0, 2, offsets[1]])?;
        self.put(first + 6, &settings.bytes())?;
        let (link, high) = (self.random.word(), self.random.pick(&[0, 0, 0, 0x8000, 0xC000]));
        self.put_words(block, &[self.calls as u16, 0x8003, link, count as u16 | high])?;
        let list = self.filter_list(count, header.address.into(), broadcasts != 0);
        if !list.is_empty() && (count < 1_000 || self.random.chance(50)) {
            self.put(block + 8, &list)?;
        }
        self.put_words(self.scb(4), &[offsets[0]])?;
        self.command(0x0100)?;
        self.line("turn 4".into())?;
        self.show(block, 8)?;
        // That length 0 has emptied the filter shows under another length; under this one no frame matches.
        if header.address == 0 {
            self.frame([0xFF; 6], 20)?;
            let header = Header { address: 1 + self.random.below(6) as u8, ..header };
            self.start_configure(Settings { header, ..settings })?;
            self.line("run 2".into())?;
        }
        self.put_words(descriptor, &[0, 0, offsets[2], NONE])?;
        self.put_words(self.scb(6), &[offsets[2]])?;
        self.command(0x0010)?;
        // The fewer bits are set, the sooner all is known of them.
        for _ in 0..4 + 2 * self.device().filter.count_ones().min(8) {
            let (to, length) = (self.candidate(), self.header() + self.random.below(40));
            self.frame(to, length)?;
        }
        self.show_scb()
    }

    /// How many bytes an MC-Setup shall have, for addresses of this length.
    fn filter_count(&mut self, length: usize) -> io::Result<usize> {
        let (n, unit) = (self.n(), length.max(1));
        let (around, any) = (8_184 + self.random.below(8_200), self.random.below(16_384));
        let few = unit + self.random.below(6 * unit);
        let many = unit + self.random.below(63 * unit);
        let fixed = [0, unit - 1, unit, 17 * unit, 30 * unit, 30 * unit];
        let mut count = match self.random.below(16) {
            which @ 0..=5 => fixed[which],
            6 => few,
            7..=10 => many,
            11 => any,
            12 => 16_383,
            _ => around,
        };
        if count > 1_000 || self.random.chance(10) {
            // Little else in memory: few bits are set by what a long list meets there.
            let byte = self.random.byte();
            self.line(format!("bytes memory 0 {n}x{byte:02X}"))?;
            if n == 16_384 && self.random.chance(50) {
                count = 16_380 + self.random.below(4);
            }
        }
        Ok(count)
    }

    /// At most thirty addresses of this length, packed. If broadcasts are disabled, the bit of all FFh is mostly set by another.
    fn filter_list(&mut self, count: usize, length: usize, disabled: bool) -> Vec<u8> {
        let ones = [0xFF; 6];
        let mut listed: Vec<[u8; 6]> = Vec::new();
        for _ in 0..(count / length.max(1)).min(30) {
            let any = std::array::from_fn(|_| self.random.byte());
            listed.push(if self.random.chance(60) { any } else { self.address() });
        }
        if disabled && self.random.chance(50) {
            let other = self.falling_of(length, 1 << hash(&ones[..length]), 1);
            for (i, address) in listed.iter_mut().enumerate() {
                if i == 0 || address[..length] == ones[..length] {
                    *address = other;
                }
            }
        }
        listed.iter().flat_map(|address| address[..length].to_vec()).collect()
    }

    /// An address that the filter decides on, or seems to.
    fn candidate(&mut self) -> [u8; 6] {
        let Device { filter, ref listed, .. } = *self.device();
        let (late, earlier, by_others) = (filter ^ listed.late, listed.before & !filter, filter & !listed.groups);
        let ones = 1 << hash(&[0xFF; 6][..self.address_length()]);
        match self.random.below(20) {
            0..=8 if filter == 0 => self.falling(earlier, 1),
            0..=8 => self.falling(filter, 1),
            9..=12 => self.falling(!filter, 1),
            13 | 14 => self.falling(late, 1),
            15 => self.falling(earlier, 1),
            16 if self.random.chance(50) => self.falling(by_others, 1),
            // The bit of all FFh, which few lists leave clear.
            16 => self.falling(ones, 1),
            17 => self.falling(filter, 0),
            18 => [0xFF; 6],
            _ => self.address(),
        }
    }

    /// Any address with this low bit that falls on one of these bits of the filter, by the length in force.
    fn falling(&mut self, bits: u64, low: u8) -> [u8; 6] {
        self.falling_of(self.address_length(), bits, low)
    }

    /// The same by this length; on any bit, if there are none. Short addresses do not fall on every bit: then any is taken in the end.
    fn falling_of(&mut self, length: usize, bits: u64, low: u8) -> [u8; 6] {
        let mut address = [0; 6];
        for _ in 0..1_000 {
            address = std::array::from_fn(|_| self.random.byte());
            address[0] = address[0] & 0xFE | low;
            if bits == 0 || bits >> hash(&address[..length]) & 1 != 0 {
                break;
            }
        }
        address
    }

    // ---- Lengths and locations, closely watched ----

    /// A Configure, and behind it four Transmits by what it says.
    fn headers_sent(&mut self) -> io::Result<()> {
        self.command(0xF440)?;
        let settings = self.taking();
        let mut link = self.random.word();
        // From the last to the first.
        for i in 0..4 {
            let (chain, block) = (self.chain_for(settings.header)?, self.piece(16));
            let (end, interrupt) = (if i == 0 { 0x8000 } else { 0 }, self.random.pick(&[0, 0, 0x2000]));
            let header = self.any_bytes(8);
            self.put_words(block, &[0, 4 | end | interrupt, link, chain])?;
            self.put(block + 8, &header)?;
            link = self.offset(block);
        }
        let first = self.piece(24);
        self.put_words(first, &[0, 2, link])?;
        self.put(first + 6, &settings.bytes())?;
        let offset = self.offset(first);
        self.put_words(self.scb(4), &[offset])?;
        self.command(0x0100)?;
        for _ in 0..9 {
            if self.device().cu_works() {
                self.sending_turns()?;
            }
        }
        self.show_scb()
    }

    /// A run, or two turns, mostly with a report that sends.
    fn sending_turns(&mut self) -> io::Result<()> {
        let report = self.random.pick(&[0, 0, 0, 0, 0, 0x0003, 0x00C0, 0x0020]);
        let how = self.random.pick(&["run 90", "run 90", "run 90", "turn 2"]);
        self.line(format!("{how} {report}"))?;
        self.observe()
    }

    /// Lays a chain for a Transmit with this header: none; or buffers of no byte, of a few, of as many as there may be, or of one more.
    fn chain_for(&mut self, header: Header) -> io::Result<u16> {
        let (few, most) = (1 + self.random.below(60), AREA - usize::from(header.apart()));
        let total = match self.random.below(10) {
            0 => return Ok(NONE),
            1 => 0,
            2 | 3 => few,
            4..=6 => most,
            _ => most + 1,
        };
        // Its first bytes tell one from another; what follows is whatever stands there.
        let (mut data, bytes) = (self.piece(64), self.any_bytes(24));
        self.put(data, &bytes)?;
        let count = self.random.pick(&[1, 1, 2, 3]);
        let parts = self.parts(total, count);
        let places: Vec<usize> = parts.iter().map(|_| self.piece(8)).collect();
        let offsets: Vec<u16> = places.iter().map(|at| self.offset(*at)).collect();
        for (i, part) in parts.iter().enumerate() {
            let last = i + 1 == parts.len();
            let next = if last { self.random.pick(&[NONE, 0x1234]) } else { offsets[i + 1] };
            self.put_words(places[i], &[*part as u16 | if last { 0x8000 } else { 0 }, next])?;
            let real = self.real_bytes(data % self.n());
            self.put(places[i] + 4, &real)?;
            data += part;
        }
        Ok(offsets[0])
    }

    /// So many bytes in so many parts.
    fn parts(&mut self, total: usize, count: usize) -> Vec<usize> {
        let (mut parts, mut left) = (Vec::new(), total);
        for _ in 1..count {
            let part = self.random.below(left + 1);
            parts.push(part);
            left -= part;
        }
        parts.push(left);
        parts
    }

    /// Settings of any length and location that let frames in: with length 0 that is promiscuous mode.
    fn taking(&mut self) -> Settings {
        let header = self.any_header();
        let byte8 = if header.address == 0 { 1 } else { self.random.pick(&[0, 0, 0, 0, 0, 1, 2]) };
        Settings { save_bad: self.random.chance(85), header, byte8, minimum: self.random.pick(&[0, 0, 6, 18, 64]) }
    }

    /// A frame that is held while a Configure says another length or location: before its begin, at its buffers or at its end.
    fn headers_held(&mut self) -> io::Result<()> {
        self.command(0xF440)?;
        let (settings, mut other) = (self.taking(), self.taking());
        if self.random.chance(50) {
            other.header.in_buffers = !settings.header.in_buffers;
        }
        let (descriptors, data) = self.wide_area()?;
        self.lay_configure(settings)?;
        self.command(0x0110)?;
        self.line("run 2".into())?;
        if self.random.chance(60) {
            let (to, few) = (self.sure(), self.header() - 1);
            self.frame(to, few)?;
        }
        self.near_frame()?;
        if self.random.chance(35) {
            self.hold_behind(other)?;
        } else {
            for _ in 0..self.random.below(3) {
                self.turn_line(1)?;
            }
            self.start_configure(other)?;
        }
        self.held_turns()?;
        for at in descriptors {
            self.show(at, 22)?;
        }
        self.show(data, 40)?;
        // The next frame is stored by what the Configure has said.
        self.near_frame()?;
        self.held_turns()
    }

    /// Turns and runs, until nothing is left to do.
    fn held_turns(&mut self) -> io::Result<()> {
        for _ in 0..10 {
            if self.device().ru_works() || self.device().cu_works() {
                let how = self.random.pick(&["turn", "run 9", "run 9", "run 9"]);
                self.line(how.into())?;
                self.observe()?;
            }
        }
        Ok(())
    }

    /// Brings the held frame to its end, between a Configure's begin and its end; the next frame is held then and not begun.
    fn hold_behind(&mut self, other: Settings) -> io::Result<()> {
        for _ in 0..6 {
            if self.device().held().map_or(false, |held| !matches!(held.begun.map(|begun| begun.step), Some(Store::End { .. }))) {
                self.turn_line(1)?;
            }
        }
        self.start_configure(other)?;
        self.line("turn 2".into())?;
        self.near_frame()?;
        self.turn_line(1)?;
        self.observe()
    }

    /// A frame that begins as the chip takes it: of its header alone, of a byte more, of a few, or as long as may be.
    fn near_frame(&mut self) -> io::Result<()> {
        let header = self.header();
        let few = header + 2 + self.random.below(40);
        let length = self.random.pick(&[header, header, header + 1, header + 1, few, AREA, AREA, AREA]);
        let to = if self.random.chance(70) { self.sure() } else { self.device().own };
        self.frame(to, length)
    }

    /// Two frame descriptors and a ring of buffers with room for the longest frame; where they lie comes back, and where the first buffer does.
    fn wide_area(&mut self) -> io::Result<([usize; 2], usize)> {
        let sizes = match self.random.below(5) {
            0 | 1 => vec![AREA],
            2 => vec![1, AREA],
            3 => vec![5, 9, AREA],
            _ => vec![700, 700, 700],
        };
        let descriptors = [self.piece(22), self.piece(22)];
        let offsets = descriptors.map(|at| self.offset(at));
        let data = self.piece(AREA + 60);
        let places: Vec<usize> = sizes.iter().map(|_| self.piece(10)).collect();
        let links: Vec<u16> = places.iter().map(|at| self.offset(*at)).collect();
        let mut at = data;
        for (i, size) in sizes.iter().enumerate() {
            let real = self.real(at % self.n());
            self.put_words(places[i], &[0, links[(i + 1) % links.len()], real as u16, (real >> 16) as u16, *size as u16])?;
            at += size;
        }
        let bits = self.random.pick(&[0, 0, 0, 0x8000]);
        self.put_words(descriptors[0], &[0, 0, offsets[1], links[0]])?;
        self.put_words(descriptors[1], &[0, bits, offsets[0], links[0]])?;
        self.put_words(self.scb(6), &[offsets[0]])?;
        Ok((descriptors, data))
    }

    // ---- Why a frame is dropped, closely watched ----

    /// Frames of all kinds in every state of the RU: of several reasons the first is told.
    fn dropping(&mut self) -> io::Result<()> {
        self.command(0xF440)?;
        let (save_bad, header, byte8) = (self.random.chance(40), self.some_header(), self.random.pick(&[0, 0, 0, 1, 1, 1, 2, 2]));
        let (byte8, minimum) = (self.byte8(header, byte8), self.random.pick(&[64, 64, 64, 64, 30, 30, 18, 255]));
        self.start_configure(Settings { save_bad, header, byte8, minimum })?;
        self.line("turn 2".into())?;
        // Idle
        self.judged(4)?;
        let descriptor = self.piece(22);
        let offset = self.offset(descriptor);
        self.put_words(descriptor, &[0, 0x8000, offset, NONE])?;
        self.put_words(self.scb(6), &[offset])?;
        self.command(0x0010)?;
        // Suspended
        self.command(0x0030)?;
        self.judged(4)?;
        // Ready, until one is held
        self.command(0x0010)?;
        self.judged(4)?;
        // No Resources, by one that is held at the latest now
        let to = self.sure();
        self.line(format!("arrival 0 {} 255x00", hex(&to)))?;
        self.line("turn 2".into())?;
        self.judged(9)?;
        // Before the first attention
        if self.random.chance(50) {
            self.command(0x0080)?;
            self.judged(4)?;
        }
        Ok(())
    }

    /// So many frames, to the chip or to others, of lengths about the header's and about the minimum.
    fn judged(&mut self, count: usize) -> io::Result<()> {
        for _ in 0..count {
            let to = if self.random.chance(if self.device().promiscuous { 40 } else { 65 }) { self.sure() } else { self.stranger() };
            let length = self.judged_length();
            self.frame(to, length)?;
        }
        self.show_scb()
    }

    fn judged_length(&mut self) -> usize {
        let (header, minimum) = (self.header(), usize::from(self.device().minimum));
        match self.random.below(8) {
            0 => self.random.below(header),
            1 => self.random.pick(&[header - 2, header - 1, header - 1, header]),
            2..=4 => self.short_length(),
            5 => minimum.saturating_sub(4).max(header),
            _ => minimum.max(header) + self.random.below(40),
        }
    }

    /// A short frame's length, or just the header's if no frame is short.
    fn short_length(&mut self) -> usize {
        let header = self.header();
        let least = usize::from(self.device().minimum).saturating_sub(4);
        header + self.random.below(least.saturating_sub(header).max(1))
    }

    /// An address that the chip takes in promiscuous mode alone, or nearly always so: a group may fall on a bit that is set.
    fn stranger(&mut self) -> [u8; 6] {
        let clear = !self.device().filter;
        let low = self.random.pick(&[0, 0, 1]);
        self.falling(if low == 1 { clear } else { 0 }, low)
    }

    // ---- Pieces over the SCB, where the order inside a call shows ----

    /// A place over the SCB, often that one.
    fn near_scb(&mut self, often: usize) -> usize {
        let n = self.n();
        if self.random.chance(35) {
            return (self.scb(0) + n + often - 16) % n;
        }
        (self.scb(0) + n - 22 + 2 * self.random.below(19)) % n
    }

    fn over_scb(&mut self) -> io::Result<()> {
        self.command(0xF440)?;
        let (commands, frames) = self.random.pick(&[(true, false), (true, false), (false, true), (false, true), (true, true)]);
        if commands {
            // Its status over the RFA offset, or its link over the SCB's status.
            let often = self.random.pick(&[16 + 6, 16 - 4]);
            let at = self.near_scb(often);
            let kind = self.random.pick(&[0, 0, 5, 1, 2, 4, 6]);
            let word = kind | self.random.word() & self.random.pick(&[0x2000, 0x6000, 0xE000]);
            let (link, parameter) = (self.piece_offset(), self.random.pick(&[NONE, 0x1234]));
            self.put_words(at, &[0, word, link, parameter])?;
            let offset = self.offset(at);
            self.put_words(self.scb(4), &[offset])?;
            self.command(0x0100)?;
            self.show_scb()?;
        }
        if frames {
            // Its status over the CBL offset or over RSCERRS; the next one's +6 over the SCB's status.
            let often = self.random.pick(&[16 + 4, 16 + 12]);
            let at = self.near_scb(often);
            let offset = self.offset(at);
            let next = self.near_scb(16 - 6);
            let link = if self.random.chance(50) { self.offset(next) } else { self.piece_offset() };
            let own = if self.random.chance(30) { self.buffer_over_itself()? } else { self.piece_offset() };
            let first = if self.random.chance(50) { NONE } else { own };
            let bits = self.random.pick(&[0, 0, 0x4000, 0x8000]);
            self.put_words(at, &[0, bits, link, first])?;
            self.put_words(self.scb(6), &[offset])?;
            self.command(0x0010)?;
            // The attention wrote over what lay at the SCB's first words.
            self.put_words(at + 2, &[bits, link, first])?;
            self.show_scb()?;
            let length = self.random.pick(&[self.header(), 60, 61, 80]);
            let to = self.sure();
            self.frame(to, length)?;
        }
        for _ in 0..8 {
            let device = self.device();
            if !device.cu_works() && !device.ru_works() {
                break;
            }
            let begun = device.begun().is_some() || device.held().map_or(false, |held| held.begun.is_some());
            if begun && self.random.chance(30) {
                let ack = self.random.word() & 0xF000;
                let code = self.random.pick(&[0x0400, 0x0410, 0x0410, 0x0410, 0x0040, 0x0140, 0x0140, 0x0140, 0x0440, 0x0330]);
                self.command(ack | code)?;
                self.show_scb()?;
            } else {
                self.turn()?;
            }
        }
        // Where the units stand now shows in what they write next.
        self.turn()?;
        let held = self.sure();
        self.frame(held, 60)?;
        self.line("turn 2".into())?;
        self.observe()
    }

    /// One of the places where two accesses of one call meet.
    fn crossing(&mut self) -> io::Result<()> {
        self.command(0xF440)?;
        let n = self.n();
        let scb = self.scb(0);
        let ack = self.random.word() & 0xF000;
        let kind = self.random.pick(&[0, 0, 1, 5, 6, 7]);
        let buffer = self.piece(70);
        let real = self.real(buffer);
        let rbd = self.piece(10);
        let rbd_offset = self.offset(rbd);
        let next = self.piece_offset();
        self.put_words(rbd, &[0, next, real as u16, (real >> 16) as u16, 70])?;
        let to = self.sure();
        match self.random.below(7) {
            // A begun block's status over the RFA offset: abort, and START of the RU.
            0 => {
                let offset = self.offset((scb + 6) % n);
                self.put_words(scb + 4, &[offset, 0, kind])?;
                self.command(0x0100)?;
                self.line("turn".into())?;
                self.command(ack | 0x0410)?;
            }
            // A begun frame's descriptor over the CBL offset: abort, and START of the CU.
            1 => {
                let offset = self.offset((scb + 4) % n);
                self.put_words(scb + 4, &[0, offset])?;
                self.command(0x0010)?;
                self.frame(to, 60)?;
                self.line("turn".into())?;
                self.command(ack | 0x0140)?;
            }
            // A block's link over the SCB's status.
            2 => {
                let at = (scb + n - 4) % n;
                let offset = self.offset(at);
                let bits = self.random.pick(&[0x2000, 0x4000, 0x6000]);
                self.put_words(scb + 4, &[offset])?;
                self.put_words(at, &[0, bits | kind])?;
                self.command(0x0100)?;
                self.line("turn 2".into())?;
                self.show_scb()?;
                self.command(0x0200)?;
            }
            // The next descriptor's +6 over the SCB's status, or over this one's status.
            3 | 4 => {
                let at = self.piece(22);
                let near = if self.random.chance(50) { at } else { scb };
                let link = self.offset((near + n - 6) % n);
                let bits = self.random.pick(&[0, 0, 0x4000]);
                self.put_words(at, &[0, bits, link, rbd_offset])?;
                let offset = self.offset(at);
                self.put_words(scb + 6, &[offset])?;
                self.command(0x0010)?;
                self.frame(to, 60 + 4 * usize::from(bits != 0))?;
                self.line("turn 3".into())?;
                self.show(at, 22)?;
            }
            // RSCERRS in the descriptor of a frame that runs out of buffers.
            _ => {
                let at = (scb + n + 12 - 2 * self.random.pick(&[0, 0, 0, 4, 4, 5, 6, 7, 8, 9, 10])) % n;
                let offset = self.offset(at);
                self.put_words(scb + 6, &[offset])?;
                self.command(0x0010)?;
                self.put_words(at + 2, &[0, 0, NONE])?;
                let length = usize::from(self.device().minimum).max(self.header() + 1);
                self.frame(to, length)?;
                self.line("turn 2".into())?;
            }
        }
        self.show_scb()?;
        // Where the units stand now shows in what they write next.
        self.frame(to, 64)?;
        self.line("turn 2".into())?;
        self.observe()
    }

    /// A receive buffer descriptor with its buffer over it.
    fn buffer_over_itself(&mut self) -> io::Result<u16> {
        let at = self.piece(10);
        let offset = self.offset(at);
        let n = self.n();
        let near = (at + n + self.random.below(12) - 6) % n;
        let real = self.real(near);
        self.put_words(at, &[0, offset, real as u16, (real >> 16) as u16, 20])?;
        Ok(offset)
    }

    // ---- Chains of about 64 ----

    /// An attention with this command word.
    fn command(&mut self, code: u16) -> io::Result<()> {
        self.put_words(self.scb(2), &[code])?;
        self.line("attention".into())
    }

    /// A Transmit of 63 to 66 descriptors, or of one that is its own next.
    fn long_send(&mut self) -> io::Result<()> {
        self.command(0xF400)?;
        let count = self.random.pick(&[63, 64, 64, 64, 64, 65, 65]);
        let width = self.random.pick(&[7, 8]);
        let size = self.random.below(32);
        let first = self.piece(count * width);
        let data = self.piece(size + 1);
        let mut all = Vec::new();
        for i in 0..count {
            let last = i + 1 == count;
            let next = self.offset((first + (i + 1) * width) % self.n());
            let word = size as u16 | if last { 0x8000 } else { 0 };
            let real = self.real_bytes(data + i % 7);
            all.extend(word.to_le_bytes());
            all.extend(next.to_le_bytes());
            all.extend(&real[..width - 4]);
        }
        self.put(first, &all)?;
        let offset = self.offset(first);
        if self.random.chance(15) {
            self.put_words(first + 2, &[offset])?;
        }
        let block = self.piece(16);
        let word = 0x8004 | self.random.word() & 0x6000;
        let to = self.address();
        let mut bytes = Vec::new();
        for word in [0, word, self.random.word(), offset] {
            bytes.extend(word.to_le_bytes());
        }
        bytes.extend(to);
        bytes.extend(self.random.word().to_le_bytes());
        self.put(block, &bytes)?;
        let block = self.offset(block);
        self.put_words(self.scb(4), &[block])?;
        self.put_words(self.scb(2), &[0x0100])?;
        self.line("attention".into())?;
        self.observe()?;
        self.bundles()
    }

    /// A frame of about 64 bytes of data into buffers of one byte, as many or one that is its own next.
    fn long_store(&mut self) -> io::Result<()> {
        self.command(0xF040)?;
        let count = self.random.pick(&[1, 1, 64, 65, 66]);
        let first = self.piece(count * 10);
        let data = self.piece(64);
        let mut all = Vec::new();
        for i in 0..count {
            let next = if count == 1 { first } else { (first + 10 * i + 10) % self.n() };
            let next = self.offset(next);
            all.extend([0, 0]);
            all.extend(next.to_le_bytes());
            let n = self.n();
            all.extend(self.real_bytes((data + i) % n));
            all.extend([1, 0]);
        }
        self.put(first, &all)?;
        let descriptors = [self.piece(22), self.piece(22)];
        let link = self.offset(descriptors[1]);
        let pointer = self.offset(first);
        let bits = self.random.pick(&[0, 0, 0, 0x4000, 0x8000]);
        self.put_words(descriptors[0], &[0, bits, link, pointer])?;
        let descriptor = self.offset(descriptors[0]);
        self.put_words(self.scb(6), &[descriptor])?;
        self.put_words(self.scb(2), &[0x0010])?;
        self.line("attention".into())?;
        self.observe()?;
        let length = self.apart() + self.random.pick(&[63, 64, 64, 64, 64, 65, 65]);
        let to = self.sure();
        self.frame(to, length)?;
        self.bundles()?;
        self.show(descriptors[1], 8)
    }

    /// Turns in bundles, until the chain that is worked on has ended.
    fn bundles(&mut self) -> io::Result<()> {
        for _ in 0..12 {
            let device = self.device();
            let units = usize::from(device.cu_works()) + usize::from(device.ru_works());
            let sending = match device.begun().map(|begun| begun.step) {
                Some(Send::Buffer { used, .. }) => 64 - usize::from(used),
                _ => 0,
            };
            let storing = match device.held().and_then(|held| held.begun).map(|begun| begun.step) {
                Some(Store::Buffer { used, .. }) => 64 - usize::from(used),
                _ => 0,
            };
            let ahead = sending.max(storing);
            if units == 0 {
                break;
            }
            if self.random.chance(50) {
                self.run_line()?;
            } else {
                self.turn_line((ahead * 3 / 4).max(1))?;
            }
            self.observe()?;
            if self.random.chance(3) {
                self.attention()?;
            }
        }
        Ok(())
    }

    // ---- The first attention ----

    fn initialise(&mut self) -> io::Result<()> {
        let n = self.n();
        self.scene.pieces.clear();
        let iscp = if self.random.chance(10) { n - 1 - self.random.below(12) } else { self.random.below(n - 16) };
        let mut scb = match self.random.below(10) {
            0 | 1 => (n - 18 + self.random.below(18)) % n,
            _ => self.random.below(n),
        };
        if self.random.chance(self.scene.overlap / 2 + 2) {
            scb = (iscp + n + self.random.below(24) - 16) % n;
        }
        let base = match self.random.below(6) {
            0 | 1 => 0,
            2 => self.random.below(1 << 24),
            3 => (1 << 24) - 1 - self.random.below(70_000),
            4 => n * self.random.below((1 << 24) / n),
            _ => self.random.below(65_536),
        };
        let low = (scb + n - base % n) % n;
        let offset = low + n * self.random.below(65_536 / n);
        self.scene.free = (scb + 16 + self.random.below(n - 200)) % n;
        if self.random.chance(60) {
            let near = self.random.pick(&[0xFFFF, 0xFFFF, 0xFFFE]);
            let words: Vec<u16> = (0..4).map(|_| if self.random.chance(50) { near } else { 0 }).collect();
            self.put_words(scb + 8, &words)?;
        }
        let command = if self.random.chance(30) { self.random.word() } else { 0 };
        self.put_words(scb + 2, &[command])?;
        let busy = if self.random.chance(80) { 1 } else { self.random.word() };
        let base = (base as u32).to_le_bytes();
        let high = if self.random.chance(70) { 0 } else { self.random.byte() };
        self.put_words(iscp, &[busy, offset as u16, u16::from_le_bytes([base[0], base[1]]), u16::from_le_bytes([base[2], high])])?;
        let pointer = self.real_bytes(iscp);
        self.put(n - 4, &pointer)?;
        self.line("attention".into())?;
        self.show(iscp, 8)?;
        self.observe()?;
        if self.random.chance(65) { self.settle() } else { Ok(()) }
    }

    /// Settings other than a reset's, mostly such that frames come in.
    fn settle(&mut self) -> io::Result<()> {
        // The addresses before the length is told, or behind it.
        let kinds = self.random.pick(&[[1, 3, 2], [2, 1, 3]]);
        let header = self.some_header();
        let places: Vec<usize> = kinds.iter().map(|kind| self.piece(if *kind == 3 { 188 } else { 24 })).collect();
        let offsets: Vec<u16> = places.iter().map(|at| self.offset(*at)).collect();
        for (i, kind) in kinds.iter().enumerate() {
            let mut block = Vec::new();
            for word in [0, kind | if i == 2 { 0x8000 } else { 0 }, offsets[(i + 1) % 3]] {
                block.extend(word.to_le_bytes());
            }
            let parameters = match kind {
                1 => self.settled_own().to_vec(),
                2 => self.settled_bytes(header),
                _ => self.list_bytes(if kinds[0] == 2 { header.address.into() } else { 6 }),
            };
            block.extend(parameters);
            self.put(places[i], &block)?;
        }
        self.put_words(self.scb(4), &[offsets[0]])?;
        self.put_words(self.scb(2), &[0xF100])?;
        self.line("attention".into())?;
        self.line("turn 6".into())?;
        self.observe()
    }

    /// An own address, seldom all FFh.
    fn settled_own(&mut self) -> [u8; 6] {
        let mut own = self.address();
        if own == [0xFF; 6] && !self.random.chance(10) {
            own[0] = 0x02;
        }
        own
    }

    /// A Configure that is not rejected.
    fn settled_bytes(&mut self, header: Header) -> Vec<u8> {
        let mut bytes = self.configure_bytes();
        bytes[0] |= if self.random.chance(35) { 0x0C } else { 0 };
        bytes[2] |= if self.random.chance(50) { 0x80 } else { 0 };
        bytes[3] = 0x20 | byte3(header);
        self.receive_by(header, &mut bytes);
        bytes
    }

    // ---- Attentions ----

    fn attention(&mut self) -> io::Result<()> {
        let status = self.device().status();
        let ack = match self.random.below(10) {
            0..=4 => status & 0xF000,
            5 => 0xF000,
            6 | 7 => 0,
            _ => self.random.word() & 0xF000,
        };
        let (mut cuc, mut ruc) = (self.random.below(8), self.random.below(8));
        let (cu, ru) = (self.device().cu_name(), self.device().ru_name());
        let begun = ru == "Ready, begun" && self.random.chance(35);
        let seldom = begun || cu.contains("waits") || ru.contains("waits") || ru == "Ready, held" || ru == "Suspended" || cu == "Suspended";
        if self.scene.stale > 60 && self.random.chance(60) {
            // Lists and areas that lead nowhere are left.
            self.scene.stale = 0;
            (cuc, ruc) = (4, if self.random.chance(50) { 4 } else { ruc });
        } else if !self.random.chance(if seldom { 75 } else { self.scene.wild }) {
            cuc = match self.device().cu {
                Cu::Idle => self.random.pick(&[1, 1, 1, 1, 0]),
                Cu::Suspended { .. } => self.random.pick(&[2, 2, 1, 0, 4]),
                Cu::Active { begun: Some(begun), .. } if begun.kind == 4 => self.random.pick(&[0, 0, 0, 0, 3, 3, 4]),
                Cu::Active { begun: Some(_), .. } => self.random.pick(&[0, 3, 3, 4, 4, 4]),
                Cu::Active { .. } => self.random.pick(&[0, 0, 0, 0, 0, 3, 4]),
            };
            ruc = match self.device().ru {
                Ru::Idle => self.random.pick(&[1, 1, 1, 1, 0]),
                Ru::Suspended { .. } => self.random.pick(&[2, 2, 1, 0, 0, 0]),
                Ru::NoResources => self.random.pick(&[1, 1, 1, 0]),
                Ru::Ready { held: Some(_), .. } => self.random.pick(&[0, 0, 0, 0, 3, 3, 4]),
                Ru::Ready { .. } => self.random.pick(&[0, 0, 0, 0, 0, 0, 3, 4]),
            };
        }
        if fails(self.device()) && self.random.chance(65) {
            cuc = 4;
        }
        if out(self.device()) && self.random.chance(25) {
            ruc = 4;
        }
        if cuc == 1 && self.random.chance(90) {
            let first = self.command_list()?;
            self.put_words(self.scb(4), &[first])?;
        }
        if ruc == 1 && self.random.chance(90) {
            let first = self.receive_area()?;
            self.put_words(self.scb(6), &[first])?;
        }
        let mut word = ack | (cuc as u16) << 8 | (ruc as u16) << 4;
        if self.random.chance(20) {
            word |= self.random.word() & 0x080F;
        }
        if cuc == 1 || ruc == 1 {
            self.scene.stale /= 2;
        }
        if self.random.below(if seldom { 12 } else { 25 }) == 0 {
            word |= 0x0080;
        }
        if !self.random.chance(3) {
            self.put_words(self.scb(2), &[word])?;
        }
        self.line("attention".into())?;
        self.observe()
    }

    // ---- Command lists ----

    /// Lays a list; the offset of its first block comes back.
    fn command_list(&mut self) -> io::Result<u16> {
        let count = self.random.pick(&[1, 1, 1, 1, 2, 2, 3, 4, 6]);
        let mut kinds: Vec<u16> = (0..count).map(|_| self.random.pick(&[0, 1, 2, 2, 2, 2, 3, 3, 4, 4, 4, 4, 4, 4, 4, 5, 5, 6, 6, 7, 7])).collect();
        if count == 1 && self.random.chance(40) {
            kinds[0] = 4;
        }
        // Settings that change under a held frame.
        if self.device().ru_works() && self.random.chance(60) {
            kinds[0] = 2;
        }
        let places: Vec<usize> = kinds.iter().map(|kind| self.piece(if *kind == 3 { 188 } else { 24 })).collect();
        let offsets: Vec<u16> = places.iter().map(|at| self.offset(*at)).collect();
        for (i, kind) in kinds.iter().enumerate() {
            let last = i + 1 == count;
            let link = match self.random.below(20) {
                0 => 0xFFFF,
                1 => self.random.word(),
                2 => offsets[i],
                3 | 4 => self.random.pick(&offsets),
                _ if last => self.random.pick(&offsets),
                _ => offsets[i + 1],
            };
            let mut word = *kind;
            for (bit, percent) in [(0x8000, if last { 80 } else { 6 }), (0x4000, 14), (0x2000, 45)] {
                if self.random.chance(percent) {
                    word |= bit;
                }
            }
            if self.random.chance(15) {
                word |= self.random.word() & 0x1FF8;
            }
            let parameters = self.parameters(*kind)?;
            // A run ends at a long list, so that it does not fold it for ever.
            if *kind == 3 && parameters[1] & 0x3F > 3 {
                word |= 0x2000;
            }
            let status = if self.random.chance(60) { 0 } else { self.random.word() };
            let mut block = Vec::new();
            for word in [status, word, link] {
                block.extend(word.to_le_bytes());
            }
            block.extend(parameters);
            self.put(places[i], &block)?;
        }
        Ok(offsets[0])
    }

    fn parameters(&mut self, kind: u16) -> io::Result<Vec<u8>> {
        Ok(match kind {
            1 => self.address().to_vec(),
            2 => self.configure_bytes(),
            3 => self.list_bytes(self.address_length()),
            4 => {
                let first = self.transmit_chain()?;
                let mut bytes = first.to_le_bytes().to_vec();
                bytes.extend(self.address());
                bytes.extend(self.random.word().to_le_bytes());
                bytes
            }
            _ => self.random.word().to_le_bytes().to_vec(),
        })
    }

    /// An MC-Setup's count and its list, of at most thirty addresses of this length.
    fn list_bytes(&mut self, length: usize) -> Vec<u8> {
        let (unit, any) = (length.max(1), self.random.word());
        let most = self.random.pick(&[any, any, 0x3FFF, 0x3FFC]);
        let odd = if self.random.chance(40) { self.random.below(unit) } else { 0 };
        let count = unit * self.random.pick(&[0, 0, 1, 2, 3, 5, 6, 16, 16, 17, 17, 30, 30, 64]) + odd;
        let count = if self.random.chance(8) { most } else { count as u16 };
        let high = if self.random.chance(15) { self.random.word() & 0xC000 } else { 0 };
        let mut bytes = (count | high).to_le_bytes().to_vec();
        for _ in 0..(usize::from(count & 0x3FFF) / unit).min(30) {
            bytes.extend(&self.address()[..length]);
        }
        bytes
    }

    /// With length 0 nothing but promiscuous mode receives: a Configure says it then, mostly.
    fn receive_by(&mut self, header: Header, bytes: &mut [u8]) {
        if header.address == 0 && self.random.chance(75) {
            bytes[0] |= 0x0C;
            bytes[8] |= 1;
        }
    }

    fn configure_bytes(&mut self) -> Vec<u8> {
        let count = self.random.below(16) as u8 | if self.random.chance(20) { self.random.byte() & 0xF0 } else { 0 };
        let count = if self.random.chance(8) { self.random.pick(&[11, 12, 10, 9, 8]) } else { count };
        let mut bytes: Vec<u8> = (0..14).map(|_| self.random.byte()).collect();
        bytes[0] = count;
        let header = self.some_header();
        bytes[3] = byte3(header) | self.random.byte() & 0x30;
        match self.random.below(18) {
            0 => bytes[3] = self.random.byte(),
            1 | 2 => bytes[3] |= 0x07,
            3 | 4 => bytes[3] |= 0x40,
            5 | 6 => bytes[3] |= 0x80,
            _ => {}
        }
        bytes[2] |= if self.random.chance(50) { 0x80 } else { 0 };
        bytes[8] = bytes[8] & 0xFC | self.random.pick(&[0, 0, 0, 1, 2, 2, 3]);
        bytes[10] = self.random.pick(&[64, 64, 64, 0, 18, 19, 20, 30, 255, bytes[10]]);
        self.receive_by(header, &mut bytes);
        bytes
    }

    /// An address: one that is in use, one that is nearly, or any.
    fn address(&mut self) -> [u8; 6] {
        let few = [[0x02, 0, 0, 0, 0, 1], [0x01, 0, 0x5E, 0, 0, 1], [0x00, 0xAA, 0, 1, 2, 3], [0x03, 0, 0, 0, 0, 1]];
        let mut address = match self.random.below(16) {
            0 | 1 => [0xFF; 6],
            2..=5 => self.device().own,
            6..=8 if !self.device().listed.addresses.is_empty() => self.listed(),
            9..=11 => self.random.pick(&few),
            _ => {
                let mut bytes = [0; 6];
                for byte in &mut bytes {
                    *byte = self.random.byte();
                }
                bytes
            }
        };
        if self.random.chance(8) {
            address[self.random.below(6)] ^= 1 << self.random.below(8);
        }
        address
    }

    /// One of the last MC-Setup's addresses, with anything behind it.
    fn listed(&mut self) -> [u8; 6] {
        let mut address: [u8; 6] = std::array::from_fn(|_| self.random.byte());
        let which = self.random.below(self.device().listed.addresses.len());
        let listed = &self.replay.chip.device.listed.addresses[which];
        address[..listed.len()].copy_from_slice(listed);
        address
    }

    /// The own address but for the last byte that counts.
    fn nearly_own(&mut self) -> [u8; 6] {
        let mut address = self.device().own;
        if let Some(last) = self.address_length().checked_sub(1) {
            address[last] ^= 2 << self.random.below(7);
        }
        address
    }

    /// Lays a Transmit's descriptors; the offset of the first comes back.
    fn transmit_chain(&mut self) -> io::Result<u16> {
        let some = self.random.below(200);
        let counts: Vec<usize> = match self.random.below(30) {
            0..=2 | 20..=24 => return Ok(NONE),
            // About 2,048 bytes.
            3..=9 => {
                let most = AREA - self.apart();
                let total = self.random.pick(&[most - 1, most, most, most, most, most + 1, most + 1]);
                let parts = 1 + self.random.below(4);
                let mut counts: Vec<usize> = (0..parts).map(|_| self.random.below(total / parts)).collect();
                counts.push(total - counts.iter().sum::<usize>());
                if self.random.chance(40) {
                    counts = vec![total];
                }
                if self.random.chance(50) {
                    counts.push(0);
                }
                counts
            }
            10 if some < 80 => vec![some, 2035 + self.random.below(14_349)],
            _ => {
                let most = self.random.pick(&[1, 2, 20, 60, 200, 700]);
                (0..self.random.pick(&[1, 1, 1, 2, 2, 3, 5])).map(|_| self.random.below(most + 1)).collect()
            }
        };
        let end = self.random.below(24);
        let loops = self.random.chance(3);
        let many = counts.len() > 12;
        let width = if self.random.chance(50) { 8 } else { 7 };
        let total: usize = counts.iter().sum();
        let places: Vec<usize> = if many {
            let first = self.piece(counts.len() * width);
            (0..counts.len()).map(|i| first + i * width).collect()
        } else {
            counts.iter().map(|_| self.piece(8)).collect()
        };
        let offsets: Vec<u16> = places.iter().map(|at| self.offset(*at % self.n())).collect();
        let mut all = Vec::new();
        let mut data = self.piece(total.min(2048).max(1));
        if self.random.chance(10) {
            data = self.n() - 1 - self.random.below(30);
        }
        let start = data;
        for (i, count) in counts.iter().enumerate() {
            let last = i + 1 == counts.len();
            let mut word = *count as u16 & 0x3FFF;
            let mut next = if last { NONE } else { offsets[i + 1] };
            if last {
                match end {
                    0 | 1 => {}
                    2 => next = self.random.pick(&offsets),
                    3 => next = self.piece_offset(),
                    4..=11 => word |= 0x8000,
                    _ => {
                        word |= 0x8000;
                        next = self.random.word();
                    }
                }
                if loops {
                    word &= 0x3FFF;
                    next = self.random.pick(&offsets);
                }
            } else if self.random.chance(if many { 0 } else { 3 }) {
                next = NONE;
            }
            if self.random.chance(15) {
                word |= 0x4000;
            }
            if self.random.chance(10) && !many {
                data = self.piece(*count.min(&2048));
            }
            let mut bytes = Vec::new();
            bytes.extend(word.to_le_bytes());
            bytes.extend(next.to_le_bytes());
            bytes.extend(self.real_bytes(data % self.n()));
            bytes.truncate(if many { width } else { 8 });
            data += count;
            if many {
                all.extend(bytes);
            } else {
                self.put(places[i], &bytes)?;
            }
        }
        if many {
            self.put(places[0], &all)?;
        }
        if self.random.chance(60) && total > 0 {
            let bytes: Vec<u8> = (0..total.min(40)).map(|_| self.random.byte()).collect();
            self.put(start, &bytes)?;
        }
        Ok(offsets[0])
    }

    // ---- Receive areas ----

    /// Lays frame descriptors, buffer descriptors and buffers; the offset of the first frame descriptor comes back.
    fn receive_area(&mut self) -> io::Result<u16> {
        let count = self.random.pick(&[1, 2, 2, 3, 4]);
        let places: Vec<usize> = (0..count).map(|_| self.piece(22)).collect();
        let offsets: Vec<u16> = places.iter().map(|at| self.offset(*at)).collect();
        let first = self.buffers()?;
        for i in 0..count {
            let last = i + 1 == count;
            let link = match self.random.below(20) {
                0..=4 => 0xFFFF,
                5 => offsets[i],
                6 => self.random.word(),
                7 if self.scene.overlap > 0 => offsets[i].wrapping_add(2 * self.random.below(22) as u16).wrapping_sub(22),
                _ if last => self.random.pick(&offsets),
                _ => offsets[i + 1],
            };
            let mut word = 0;
            for (bit, percent) in [(0x8000, if last { 40 } else { 6 }), (0x4000, 20)] {
                if self.random.chance(percent) {
                    word |= bit;
                }
            }
            if self.random.chance(20) {
                word |= self.random.word() & 0x3FFF;
            }
            let pointer = if i == 0 { first } else { self.random.pick(&[NONE, first, 0]) };
            let status = if self.random.chance(60) { 0 } else { self.random.word() };
            self.put_words(places[i], &[status, word, link, pointer])?;
        }
        Ok(offsets[0])
    }

    fn buffers(&mut self) -> io::Result<u16> {
        let sizes: Vec<usize> = match self.random.below(32) {
            0..=2 => return Ok(NONE),
            3..=5 => vec![self.random.pick(&[0, 1, 1, 2, 16_383])],
            6..=8 => vec![AREA, self.random.below(300)],
            9 => vec![self.random.below(16_384)],
            _ => {
                let most = self.random.pick(&[2, 20, 46, 60, 60, 200, 200, 700]);
                let same = self.random.chance(40);
                let count = self.random.pick(&[1, 1, 2, 2, 3, 4, 6]);
                (0..count).map(|_| if same { most } else { self.random.below(most + 1) }).collect()
            }
        };
        let many = sizes.len() > 12;
        let places: Vec<usize> = if many {
            let first = self.piece(sizes.len() * 10);
            (0..sizes.len()).map(|i| first + i * 10).collect()
        } else {
            sizes.iter().map(|_| self.piece(10)).collect()
        };
        let offsets: Vec<u16> = places.iter().map(|at| self.offset(*at % self.n())).collect();
        let total: usize = sizes.iter().map(|size| size.min(&AREA)).sum();
        let mut data = self.piece(total.clamp(1, 2100));
        if self.random.chance(5) {
            data = self.n() - 1 - self.random.below(30);
        }
        let mut all = Vec::new();
        for (i, size) in sizes.iter().enumerate() {
            let last = i + 1 == sizes.len();
            let mut word = *size as u16 & 0x3FFF;
            if self.random.chance(15) {
                word |= 0x4000;
            }
            let mut next = if last { NONE } else { offsets[i + 1] };
            if last {
                match self.random.below(10) {
                    0..=2 => word |= 0x8000,
                    3 => {
                        word |= 0x8000;
                        next = self.random.word();
                    }
                    4..=6 => next = self.random.pick(&offsets),
                    7 => next = self.piece_offset(),
                    _ => {}
                }
            } else if self.random.chance(if many { 0 } else { 4 }) {
                word |= 0x8000;
            }
            if self.random.chance(10) && !many {
                data = self.piece(*size.min(&AREA));
            }
            let mut bytes = Vec::new();
            let status = if many || self.random.chance(60) { 0 } else { self.random.word() };
            bytes.extend(status.to_le_bytes());
            bytes.extend(next.to_le_bytes());
            bytes.extend(self.real_bytes(data % self.n()));
            bytes.extend(word.to_le_bytes());
            data += size.min(&AREA);
            if many {
                all.extend(bytes);
            } else {
                self.put(places[i], &bytes)?;
            }
        }
        if many {
            self.put(places[0], &all)?;
        }
        Ok(offsets[0])
    }

    /// How many data bytes the buffers take that the next frame meets, and in how many descriptors.
    fn room(&self) -> (usize, usize) {
        let chip = &self.replay.chip;
        let descriptor = match chip.device.ru {
            Ru::Ready { descriptor, .. } => descriptor,
            _ => return (0, 0),
        };
        let mut next = chip.word(chip.at(descriptor, 6));
        let (mut room, mut used) = (0, 0);
        while next != NONE && used < 64 && room < AREA {
            let word = chip.word(chip.at(next, 8));
            room += usize::from(word & 0x3FFF);
            used += 1;
            next = if word & 0x8000 != 0 { NONE } else { chip.word(chip.at(next, 2)) };
        }
        (room, used)
    }

    // ---- Arrivals ----

    fn arrival(&mut self) -> io::Result<()> {
        if self.random.below(80) == 0 {
            return self.overlong();
        }
        let minimum = usize::from(self.device().minimum);
        let (room, used) = if self.allowed() && self.device().scb.is_some() { self.room() } else { (0, 0) };
        let (header, apart) = (self.header(), self.apart());
        let any = self.random.below(AREA + 1);
        let (small, short) = (header + self.random.below(100), self.short_length());
        let fits = (apart + room + self.random.below(3)).saturating_sub(1).min(AREA);
        let out = (apart + room + 1).max(header);
        let length = match self.random.below(24) {
            8..=16 if self.device().save_bad && out + 4 < minimum => out + self.random.below(minimum - 4 - out),
            0 => self.random.pick(&[0, 0, 1, header / 2, header - 2, header - 1, header - 1, header - 1]),
            1 => header,
            2 => self.random.pick(&[header - 1, header, header + 1]),
            3 | 4 => (minimum.max(6) - 6 + self.random.below(4)).min(AREA),
            5 => 57 + self.random.below(5),
            6 => self.random.pick(&[AREA, AREA - 1, AREA]),
            7 => any,
            8..=11 => fits,
            12..=16 => short,
            _ if used == 64 => fits,
            _ => small.max(minimum),
        };
        let to = self.destination();
        self.frame(to, length)
    }

    /// A frame of this length to this address.
    fn frame(&mut self, to: [u8; 6], length: usize) -> io::Result<()> {
        let verdict = match self.random.below(20) {
            0..=6 => 0,
            7..=9 if !self.device().save_bad => 0,
            7..=13 => 1,
            14..=16 => 2,
            17 => self.random.pick(&[3, 255, 256, 257, 65_536, 65_537, 1 << 31, (1 << 31) + 1, 0xFFFF_FFFF]),
            _ => self.random.next() as u32 as usize,
        };
        let verdict = self.number(verdict);
        let mut frame = to.to_vec();
        // Behind the address stands the source, whatever six bytes would have there.
        if self.random.chance(60) {
            for byte in frame.iter_mut().skip(self.replay.chip.device.header.address.into()) {
                *byte = self.random.byte();
            }
        }
        for _ in 0..8 + self.random.below(40) {
            frame.push(self.random.byte());
        }
        let mut text = format!("arrival {verdict}");
        if length <= frame.len() {
            let whole = hex(&frame[..length]);
            if !whole.is_empty() {
                text += &format!(" {whole}");
            }
        } else {
            let byte = self.random.byte();
            let rest = length - frame.len();
            let tail = rest.min(self.random.below(24));
            text += &format!(" {} {} {}x{byte:02X}", hex(&frame[..6]), hex(&frame[6..]), rest - tail);
            let tail: Vec<u8> = (0..tail).map(|_| self.random.byte()).collect();
            if !tail.is_empty() {
                text += &format!(" {}", hex(&tail));
            }
        }
        self.line(text)?;
        if self.allowed() { self.observe() } else { Ok(()) }
    }

    fn allowed(&self) -> bool {
        self.n() >= 8192 && self.n().is_power_of_two()
    }

    /// An address that the chip takes, if there is a plain one.
    fn sure(&self) -> [u8; 6] {
        if self.device().no_broadcast { self.device().own } else { [0xFF; 6] }
    }

    /// A frame's destination: mostly one that the chip takes.
    fn destination(&mut self) -> [u8; 6] {
        let device = self.device();
        let (own, all, any) = (device.own, [0xFF; 6], device.promiscuous);
        match self.random.below(13) {
            0..=2 => own,
            3..=6 => self.sure(),
            7 | 8 => all,
            9 if !self.device().listed.addresses.is_empty() => self.listed(),
            12 => self.nearly_own(),
            10 if any => std::array::from_fn(|_| self.random.byte()),
            10 => self.candidate(),
            _ => self.address(),
        }
    }

    /// A frame of more than 2,048 bytes.
    fn overlong(&mut self) -> io::Result<()> {
        let more = self.random.below(70_000);
        let count = self.random.pick(&[2049, 2049, 2049, 2050, 4096, 2049 + more]);
        let verdict = self.random.below(3);
        if self.random.chance(50) {
            self.line(format!("arrival {verdict} {}xFF", count))
        } else {
            self.line(format!("arrival {verdict} FFFFFFFFFFFF {}x00", count - 6))
        }
    }

    /// Calls with a size that is not allowed.
    fn odd_size(&mut self) -> io::Result<()> {
        let n = self.n();
        self.size()?;
        if self.n() == n || self.allowed() {
            let odd = self.random.pick(&[0, 4096, 8191, 24_576, 65_535]);
            self.line(format!("size {odd}"))?;
        }
        for _ in 0..1 + self.random.below(4) {
            match self.random.below(8) {
                0 | 1 => self.line("attention".into())?,
                2 => self.turn_line(1)?,
                3 => self.run_line()?,
                4 => self.overlong()?,
                _ => self.arrival()?,
            }
        }
        if self.random.chance(25) {
            self.line("reset".into())?;
        }
        self.line(format!("size {n}"))?;
        self.line("interrupt".into())?;
        self.show_scb()
    }

    // ---- Turns ----

    fn report(&mut self) -> usize {
        let sends = self.device().begun().map_or(false, |begun| begun.kind == 4 && matches!(begun.step, Send::End { .. }));
        match self.random.below(12) + if sends { 5 } else { 0 } {
            0..=5 => 0,
            6..=7 => 1 << self.random.below(16),
            9..=16 if sends => 1 << self.random.below(16),
            8 => self.random.pick(&[0x0003, 0x0020, 0x0100, 0xFFFF, 0x00CF, 0x0200, 0x0400, 0xF910]),
            _ => usize::from(self.random.word()),
        }
    }

    fn turn_line(&mut self, count: usize) -> io::Result<()> {
        let report = self.report();
        let (times, report_text) = (self.number(count), self.number(report));
        let text = match self.random.below(3) {
            0 if report == 0 && count == 1 => "turn".into(),
            1 if report == 0 => format!("turn {times}"),
            _ => format!("turn {times} {report_text}"),
        };
        self.line(text)
    }

    /// A run of no turn, one, some, more than anything takes, or as many as there can be.
    fn run_line(&mut self) -> io::Result<()> {
        let (report, some) = (self.report(), 2 + self.random.below(8));
        let budget = match self.random.below(40) {
            0..=2 => 0,
            3..=7 => 1,
            8..=27 => some,
            28..=38 => 60 + self.random.below(400),
            _ => self.random.pick(&[65_535, 65_535, 65_534, 32_768]),
        };
        let (times, report_text) = (self.number(budget), self.number(report));
        let text = if report == 0 && self.random.chance(50) { format!("run {times}") } else { format!("run {times} {report_text}") };
        self.line(text)
    }

    /// A turn, or some, or a run.
    fn turn(&mut self) -> io::Result<()> {
        let works = self.device().cu_works() || self.device().ru_works();
        let count = if works && self.random.chance(5) { 1 + self.random.below(6) } else { 1 };
        self.scene.stale += count;
        let cu = self.device().cu;
        let ru = self.device().ru;
        if self.random.chance(28) {
            self.run_line()?;
        } else {
            self.turn_line(count)?;
        }
        self.observe()?;
        // What the turn was about, and what it left alone.
        if self.random.chance(35) {
            if let Cu::Active { block, begun } = cu {
                self.show(self.replay.chip.at(block, 0) as usize, 16)?;
                if let Some(Send::End { length, .. }) = begun.map(|begun| begun.step) {
                    if length > 0 && (length < 100 || self.random.chance(20)) {
                        self.line(format!("show outgoing 0 {length}"))?;
                    }
                }
            }
        }
        if self.random.chance(35) {
            if let Ru::Ready { descriptor, held: Some(_), .. } = ru {
                self.show(self.replay.chip.at(descriptor, 0) as usize, 22)?;
            }
        }
        Ok(())
    }

    // ---- What is shown ----

    fn show_scb(&mut self) -> io::Result<()> {
        if self.device().scb.is_some() {
            let scb = self.scb(0);
            self.show(scb, 16)?;
        }
        Ok(())
    }

    /// Shows the SCB, what the last call wrote, sometimes the interrupt and a stretch of anything.
    fn observe(&mut self) -> io::Result<()> {
        if self.random.chance(92) {
            self.show_scb()?;
        }
        let wrote = self.wrote();
        let often = if wrote.len() > 20 { 25 } else { 85 };
        for wrote in wrote {
            if !self.random.chance(often) {
                continue;
            }
            match wrote {
                Wrote::Memory(at, count) => {
                    if self.in_scb(at) {
                        continue;
                    }
                    let n = self.n();
                    if count <= 48 || self.random.chance(25) {
                        self.show((at + n - 1) % n, count + 2)?;
                    } else {
                        self.show((at + n - 1) % n, 17)?;
                        self.show(at + count - 16, 18)?;
                    }
                }
                Wrote::Holding(at, count) => self.show_area("holding", at, count)?,
                Wrote::Outgoing(at, count) => self.show_area("outgoing", at, count)?,
            }
        }
        if self.random.chance(25) {
            self.line("interrupt".into())?;
        }
        if self.random.chance(2) {
            let (at, count) = (self.random.below(self.n()), 16 + self.random.below(200));
            self.show(at, count)?;
        }
        Ok(())
    }

    /// What the last call wrote, each stretch once: a run may go round.
    fn wrote(&self) -> Vec<Wrote> {
        let mut once = Vec::new();
        for wrote in &self.replay.chip.wrote {
            if !once.contains(wrote) {
                once.push(*wrote);
            }
        }
        once
    }

    fn in_scb(&self, at: usize) -> bool {
        self.device().scb.is_some() && (at + self.n() - self.scb(0)) % self.n() < 16
    }

    fn show_area(&mut self, area: &str, at: usize, count: usize) -> io::Result<()> {
        if at == 2048 {
            return Ok(());
        }
        let end = (at + count + 2).min(2048);
        if count <= 64 || self.random.chance(12) {
            self.line(format!("show {area} {at} {}", end - at))
        } else {
            self.line(format!("show {area} {at:X}h 16"))?;
            self.line(format!("show {area} {} 16", end - 16))
        }
    }

    // ---- Alterations by the host ----

    fn alter(&mut self) -> io::Result<()> {
        let device = self.device().clone();
        let n = self.n();
        let value = match self.random.below(8) {
            0 => 0xFFFF,
            1 => 0,
            2 | 3 => self.piece_offset(),
            4 => self.random.word() & 0x00FF,
            _ => self.random.word(),
        };
        if device.ru_works() && self.random.chance(25) {
            self.note("holding area altered while a frame is held");
            let at = self.random.pick(&[0, 1, 2, 4, 5, 6, 12, 13, 14, 20, 59, 200, 2046]);
            return self.line(format!("words holding {at} {value}"));
        }
        if device.begun().map_or(false, |begun| begun.kind == 4) && self.random.chance(35) {
            self.note("outgoing area altered while a Transmit is begun");
            let at = self.random.pick(&[0, 1, 2, 4, 5, 6, 12, 13, 14, 20, 59, 200, 2046]);
            return self.line(format!("bytes outgoing {at} {value:04x}"));
        }
        if device.scb.is_none() {
            let at = self.random.below(n);
            return self.put_words(at, &[value]);
        }
        let (at, length) = self.target(&device);
        let field = 2 * self.random.below(length / 2);
        let odd = usize::from(self.random.chance(10));
        let value = if field >= 8 && at == self.scb(0) && self.random.chance(60) { 0xFFFF } else { value };
        self.put_words(at + field + odd, &[value])
    }

    /// A place that matters now, and its length.
    fn target(&mut self, device: &Device) -> (usize, usize) {
        let chip = &self.replay.chip;
        let mut targets = vec![(chip.scb(0), 16), (chip.scb(0), 16)];
        if let Cu::Active { block, .. } | Cu::Suspended { next: block } = device.cu {
            targets.push((chip.at(block, 0), 18));
            targets.push((chip.at(block, 2), 6));
            if device.begun().is_some() {
                self.note("block altered while its command is begun");
            }
        }
        if let Some(Send::Buffer { descriptor, .. }) = device.begun().map(|begun| begun.step) {
            targets.push((chip.at(descriptor, 0), 8));
        }
        if let Ru::Ready { descriptor, .. } | Ru::Suspended { next: descriptor } = device.ru {
            targets.push((chip.at(descriptor, 0), 22));
            targets.push((chip.at(descriptor, 2), 6));
            if device.ru_works() {
                self.note("frame descriptor altered while a frame is held");
            }
        }
        if let Some(Store::Buffer { descriptor, .. }) = device.held().and_then(|held| held.begun).map(|begun| begun.step) {
            targets.push((chip.at(descriptor, 0), 10));
        }
        let (at, length) = self.random.pick(&targets);
        let at = if self.random.chance(8) { self.random.below(self.n()) } else { at as usize };
        (at % self.n(), length)
    }
}
