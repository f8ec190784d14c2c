//! A seeded generator of datagrams: valid compounds, mutations of them, and
//! noise. A valid compound knows the items that were written into it. For the
//! writers, messages with fields in and out of range, and lengths of buffers.

use crate::encoder::Message;
use crate::items::{Item, PlacedItem, Report, Settings};
use prunepocket_sys::{ReportMessage, SettingsMessage};

/// Used where PRUNEPOCKET_SEED is not set.
pub const SEED: u64 = 0x7272_3611_3550_0012;

/// Used where PRUNEPOCKET_RUNS is not set.
pub const RUNS: u64 = 1_000_000;

/// The longest datagram that is read.
const LONGEST: usize = 2048;

/// The seed of this run: PRUNEPOCKET_SEED, decimal or hex behind 0x.
pub fn seed() -> u64 {
    let Ok(text) = std::env::var("PRUNEPOCKET_SEED") else {
        return SEED;
    };
    let number = match text.strip_prefix("0x") {
        Some(digits) => u64::from_str_radix(digits, 16),
        None => text.parse(),
    };
    number.expect("PRUNEPOCKET_SEED is a number")
}

/// How much this run tries: PRUNEPOCKET_RUNS.
pub fn runs() -> u64 {
    match std::env::var("PRUNEPOCKET_RUNS") {
        Ok(text) => text.parse().expect("PRUNEPOCKET_RUNS is a number"),
        Err(_) => RUNS,
    }
}

/// Numbers at the ends of the fields' ranges and next to them, also where only
/// 8 bits of a number are looked at.
const EDGES: [u32; 10] = [0, 1, 2, 127, 128, 255, 256, 1 << 31, u32::MAX - 1, u32::MAX];

/// The longest buffer that is lent to a writer.
pub const LONGEST_BUFFER: usize = 64;

/// SplitMix64.
pub struct Rng(u64);

impl Rng {
    pub fn new(seed: u64) -> Self {
        Rng(seed)
    }

    pub fn number(&mut self) -> u64 {
        self.0 = self.0.wrapping_add(0x9E37_79B9_7F4A_7C15);
        let mut mixed = self.0;
        mixed = (mixed ^ (mixed >> 30)).wrapping_mul(0xBF58_476D_1CE4_E5B9);
        mixed = (mixed ^ (mixed >> 27)).wrapping_mul(0x94D0_49BB_1331_11EB);
        mixed ^ (mixed >> 31)
    }

    pub fn word(&mut self) -> u32 {
        (self.number() >> 32) as u32
    }

    pub fn byte(&mut self) -> u8 {
        (self.number() >> 56) as u8
    }

    /// From 0 up to `bound`, without it. The slight bias does not matter here.
    pub fn below(&mut self, bound: usize) -> usize {
        (self.number() >> 16) as usize % bound
    }

    /// From `low` to `high`, both included.
    pub fn between(&mut self, low: usize, high: usize) -> usize {
        low + self.below(high - low + 1)
    }

    pub fn chance(&mut self, percent: usize) -> bool {
        self.below(100) < percent
    }

    pub fn pick<T: Copy>(&mut self, choices: &[T]) -> T {
        choices[self.below(choices.len())]
    }

    /// A field of 32 bits: any number, or one at an end of its range.
    fn field(&mut self) -> u32 {
        match self.below(8) {
            0 => 0,
            1 => u32::MAX,
            2 => self.below(100) as u32,
            _ => self.word(),
        }
    }

    /// A number for a writer: any, or often an edge.
    fn edge(&mut self) -> u32 {
        match self.chance(40) {
            true => self.pick(&EDGES),
            false => self.word(),
        }
    }

    fn long_edge(&mut self) -> u64 {
        u64::from(self.edge()) << 32 | u64::from(self.edge())
    }

    fn bytes(&mut self, length: usize) -> Vec<u8> {
        (0..length).map(|_| self.byte()).collect()
    }
}

/// The next datagram of a run.
pub fn datagram(rng: &mut Rng) -> Vec<u8> {
    let start = start(rng);
    match rng.below(100) {
        0..=39 => valid(rng, start).bytes,
        40..=84 => mutated(rng, start),
        _ => noise(rng),
    }
}

/// What a compound starts with.
#[derive(Clone, Copy, Debug, PartialEq, Eq)]
pub enum Start {
    /// An SR or RR: no check refuses the compound, whether reduced size was
    /// agreed or not.
    Report,
    /// A packet of any type, seldom an SR or RR: no check refuses the compound
    /// where reduced size was agreed.
    Any,
}

/// Either start, equally often.
pub fn start(rng: &mut Rng) -> Start {
    rng.pick(&[Start::Report, Start::Any])
}

/// A compound that no check refuses, as its start has it.
#[derive(Default)]
pub struct Compound {
    pub bytes: Vec<u8>,
    /// Where its packets start.
    pub packets: Vec<usize>,
    /// Where its XR blocks start.
    pub blocks: Vec<usize>,
    pub items: Vec<PlacedItem>,
}

/// A valid compound with few packets that give no item.
pub fn crowded(rng: &mut Rng, start: Start) -> Compound {
    let limit = match rng.below(20) {
        0..=13 => rng.between(12, 80) * 4,
        14..=18 => rng.between(12, 200) * 4,
        _ => LONGEST,
    };
    crowded_up_to(rng, start, limit)
}

/// The same of at most so many bytes, and nearly so many.
pub fn crowded_up_to(rng: &mut Rng, start: Start, limit: usize) -> Compound {
    let mut compound = Compound::default();
    compound.fill_with_items(rng, start, limit);
    compound
}

/// As many farewells as a datagram holds.
pub fn many_farewells(rng: &mut Rng, start: Start) -> Compound {
    let mut compound = Compound::default();
    compound.fill_with_farewells(rng, start, LONGEST);
    compound
}

pub fn valid(rng: &mut Rng, start: Start) -> Compound {
    let limit = match rng.below(20) {
        0..=10 => rng.between(2, 60) * 4,
        11..=16 => rng.between(2, 180) * 4,
        17 | 18 => rng.between(2, LONGEST / 4) * 4,
        _ => LONGEST,
    };
    let mut compound = Compound::default();
    match rng.below(50) {
        0 => compound.fill_with_farewells(rng, start, limit),
        1 => compound.fill_with_short_blocks(rng, start, limit),
        _ => compound.fill(rng, start, limit),
    }
    if compound.packets.len() > 1 && rng.chance(35) {
        compound.pad_last(rng, limit);
    }
    compound
}

impl Compound {
    /// Without an SR or RR in front, often a lone packet.
    fn fill(&mut self, rng: &mut Rng, start: Start, limit: usize) {
        let packets = match start {
            Start::Report => {
                self.report_packet(rng, limit);
                rng.pick(&[0, 1, 1, 2, 3, 4, 6, 100])
            }
            Start::Any => {
                self.first_packet(rng, limit);
                rng.pick(&[0, 0, 0, 0, 1, 1, 2, 3, 4, 100])
            }
        };
        for _ in 0..packets {
            let room = limit - self.bytes.len();
            if room < 4 {
                break;
            }
            self.any_packet(rng, room);
        }
        let room = limit - self.bytes.len();
        if room >= 4 && rng.chance(10) {
            self.other_packet(rng, room, room);
        }
    }

    /// An SR or RR of 8 bytes where the start asks for one.
    fn start_with(&mut self, rng: &mut Rng, start: Start) {
        if start == Start::Report {
            self.report_packet(rng, 8);
        }
    }

    /// A packet of at most `room` bytes, which are at least 8, each type of
    /// which is met often.
    fn first_packet(&mut self, rng: &mut Rng, room: usize) {
        match rng.below(10) {
            0..=2 => self.xr_packet(rng, room),
            3 | 4 => self.some_farewell_packet(rng, room),
            5 | 6 if room >= 36 => self.settings_packet(rng),
            7 => self.report_packet(rng, room),
            _ => {
                let longest = rng.between(1, (room / 4).min(20)) * 4;
                self.other_packet(rng, longest, room);
            }
        }
    }

    /// As many farewells as the limit holds.
    fn fill_with_farewells(&mut self, rng: &mut Rng, start: Start, limit: usize) {
        self.start_with(rng, start);
        while limit - self.bytes.len() >= 8 {
            let sources = ((limit - self.bytes.len()) / 4 - 1).min(31);
            self.farewell_packet(rng, sources, 0);
        }
    }

    /// Reports, each in a packet of its own, with farewells and settings among
    /// them.
    fn fill_with_items(&mut self, rng: &mut Rng, start: Start, limit: usize) {
        self.start_with(rng, start);
        while limit - self.bytes.len() >= 40 {
            match rng.below(10) {
                0..=6 => self.block_packet(rng),
                7 | 8 => {
                    let sources = rng.between(1, 3);
                    self.farewell_packet(rng, sources, 0);
                }
                _ => self.settings_packet(rng),
            }
        }
    }

    /// One XR packet of blocks without a word after their first.
    fn fill_with_short_blocks(&mut self, rng: &mut Rng, start: Start, limit: usize) {
        self.start_with(rng, start);
        if limit - self.bytes.len() >= 8 {
            let start = self.open(rng.below(32), 207);
            self.put(rng.field());
            while self.bytes.len() < limit {
                self.other_block(rng, 0);
            }
            self.close(start);
        }
    }

    fn put(&mut self, word: u32) {
        self.bytes.extend(word.to_be_bytes());
    }

    fn put_random(&mut self, rng: &mut Rng, words: usize) {
        for _ in 0..words {
            let word = rng.field();
            self.put(word);
        }
    }

    /// Writes a header without its length.
    fn open(&mut self, count: usize, packet_type: u8) -> usize {
        let start = self.bytes.len();
        self.packets.push(start);
        self.bytes.extend([0x80 | count as u8, packet_type, 0, 0]);
        start
    }

    /// Writes the length into the header.
    fn close(&mut self, start: usize) {
        let words = (self.bytes.len() - start) / 4;
        let length = (words - 1) as u16;
        self.bytes[start + 2..start + 4].copy_from_slice(&length.to_be_bytes());
    }

    /// Whether 4 is due where reduced size was not agreed.
    pub fn needs_reduced_size(&self) -> bool {
        !matches!(self.bytes[1], 200 | 201)
    }

    /// Sets P on the last packet and adds padding to it.
    fn pad_last(&mut self, rng: &mut Rng, limit: usize) {
        let room = (limit.max(self.bytes.len() + 16)).min(LONGEST) - self.bytes.len();
        let words = match rng.chance(80) {
            true => (room / 4).min(4),
            false => (room / 4).min(63),
        };
        if words == 0 {
            return;
        }
        let words = rng.between(1, words);
        let start = *self.packets.last().expect("a compound has packets");
        self.put_random(rng, words);
        *self.bytes.last_mut().expect("padding was added") = 4 * words as u8;
        self.bytes[start] |= 0x20;
        self.close(start);
    }

    /// An SR or RR of at most `room` bytes, which are at least 8.
    fn report_packet(&mut self, rng: &mut Rng, room: usize) {
        let (packet_type, least) = match room >= 28 && rng.chance(50) {
            true => (200, 28),
            false => (201, 8),
        };
        let most = ((room - least) / 24).min(31);
        let count = match rng.chance(70) {
            true => rng.between(0, most.min(2)),
            false => rng.between(0, most),
        };
        let content = least + 24 * count;
        let surplus = match rng.chance(20) {
            true => rng.between(0, ((room - content) / 4).min(8)),
            false => 0,
        };
        let start = self.open(count, packet_type);
        self.put_random(rng, content / 4 - 1 + surplus);
        self.close(start);
    }

    fn any_packet(&mut self, rng: &mut Rng, room: usize) {
        match rng.below(20) {
            0..=6 if room >= 8 => self.xr_packet(rng, room),
            7..=10 => self.some_farewell_packet(rng, room),
            11..=13 if room >= 36 => self.settings_packet(rng),
            14 if room >= 8 => self.report_packet(rng, room),
            _ => {
                let longest = rng.between(1, (room / 4).min(20)) * 4;
                self.other_packet(rng, longest, room);
            }
        }
    }

    /// A packet of a type that is stepped over, SDES and APP often among them.
    fn other_packet(&mut self, rng: &mut Rng, length: usize, room: usize) {
        let packet_type = match rng.below(4) {
            0 => 202,
            1 => 204,
            2 => rng.between(192, 223) as u8,
            _ => rng.byte(),
        };
        let packet_type = match packet_type {
            200 | 201 | 203 | 207 | 211 => 205,
            other => other,
        };
        let start = self.open(rng.below(32), packet_type);
        self.put_random(rng, length.min(room) / 4 - 1);
        self.close(start);
    }

    fn some_farewell_packet(&mut self, rng: &mut Rng, room: usize) {
        let most = (room / 4 - 1).min(31);
        let sources = match rng.chance(60) {
            true => rng.between(0, most.min(3)),
            false => rng.between(0, most),
        };
        let surplus = match rng.chance(30) {
            true => rng.between(0, (room / 4 - 1 - sources).min(8)),
            false => 0,
        };
        self.farewell_packet(rng, sources, surplus);
    }

    fn farewell_packet(&mut self, rng: &mut Rng, sources: usize, surplus: usize) {
        let start = self.open(sources, 203);
        for _ in 0..sources {
            let source = rng.field();
            let farewell = Item::Farewell { source };
            self.items.push(PlacedItem::new(self.bytes.len(), farewell));
            self.put(source);
        }
        self.put_random(rng, surplus);
        self.close(start);
    }

    fn settings_packet(&mut self, rng: &mut Rng) {
        let count = match rng.chance(50) {
            true => 0,
            false => rng.below(32),
        };
        let settings = Settings {
            source: rng.field(),
            group: rng.field(),
            media: rng.field(),
            received: rng.number(),
            rtp: rng.field(),
            presented: match rng.chance(30) {
                true => 0,
                false => rng.number(),
            },
        };
        let start = self.open(count, 211);
        self.items
            .push(PlacedItem::new(start, Item::Settings(settings)));
        self.bytes.extend(settings_fields(&settings));
        self.close(start);
    }

    /// An XR packet of one block of type 12.
    fn block_packet(&mut self, rng: &mut Rng) {
        let start = self.open(rng.below(32), 207);
        let source = rng.field();
        self.put(source);
        self.idms_block(rng, source);
        self.close(start);
    }

    fn xr_packet(&mut self, rng: &mut Rng, room: usize) {
        let end = self.bytes.len() + room;
        let start = self.open(rng.below(32), 207);
        let source = rng.field();
        self.put(source);
        let blocks = rng.pick(&[0, 1, 1, 2, 3, 5, 8, 600]);
        for _ in 0..blocks {
            let words = (end - self.bytes.len()) / 4;
            match words {
                0 => break,
                8.. if rng.chance(55) => self.idms_block(rng, source),
                _ => {
                    let longest = match rng.chance(90) {
                        true => words.min(9),
                        false => words,
                    };
                    let after_first = rng.below(longest);
                    self.other_block(rng, after_first);
                }
            }
        }
        self.close(start);
    }

    /// A block of type 12, more often than not with role 1.
    fn idms_block(&mut self, rng: &mut Rng, source: u32) {
        let role = match rng.chance(60) {
            true => 1,
            false => rng.below(16) as u8,
        };
        let (reserved, reserved_word) = match rng.chance(50) {
            true => (0, 0),
            false => (rng.byte() & 0x0E, rng.word() & 0x01FF_FFFF),
        };
        let field = match rng.chance(30) {
            true => 0,
            false => rng.word(),
        };
        let p = rng.chance(50);
        let report = Report {
            source,
            payload_type: rng.byte() >> 1,
            p,
            group: rng.field(),
            media: rng.field(),
            received: rng.number(),
            rtp: rng.field(),
            presented: if p { field } else { 0 },
        };
        let start = self.bytes.len();
        self.blocks.push(start);
        if role == 1 {
            self.items
                .push(PlacedItem::new(start, Item::Report(report)));
        }
        let specific = role << 4 | reserved | u8::from(p);
        self.bytes.extend([12, specific, 0, 7]);
        self.put(u32::from(report.payload_type) << 25 | reserved_word);
        self.bytes.extend(report_fields(&report));
        self.put(field);
    }

    /// The packet that a place is in.
    pub fn packet_at(&self, place: u64) -> usize {
        let packets = self.packets.iter().rev();
        let mut before = packets.filter(|&&packet| packet as u64 <= place);
        *before.next().expect("a compound starts with a packet")
    }

    /// Writes other fields over those of an item, which stays of its kind. A
    /// report's source is that of its packet, so all reports of a packet have
    /// to be told the same. Reserved bits stay, and so does the presented field
    /// where P is 0.
    pub fn retell(&mut self, index: usize, item: Item) {
        let place = self.items[index].place;
        let packet = self.packet_at(place);
        let at = place as usize;
        match item {
            Item::Report(report) => {
                self.overwrite(packet + 4, &report.source.to_be_bytes());
                let (specific, payload) = (self.bytes[at + 1], self.bytes[at + 4]);
                self.bytes[at + 1] = specific & 0xFE | u8::from(report.p);
                self.bytes[at + 4] = report.payload_type << 1 | payload & 1;
                self.overwrite(at + 8, &report_fields(&report));
                if report.p {
                    self.overwrite(at + 28, &report.presented.to_be_bytes());
                }
            }
            Item::Settings(settings) => self.overwrite(at + 4, &settings_fields(&settings)),
            Item::Farewell { source } => self.overwrite(at, &source.to_be_bytes()),
        }
        self.items[index].item = item;
    }

    fn overwrite(&mut self, at: usize, bytes: &[u8]) {
        self.bytes[at..at + bytes.len()].copy_from_slice(bytes);
    }

    /// A block of any type but 12.
    fn other_block(&mut self, rng: &mut Rng, after_first: usize) {
        let block_type = match rng.chance(50) {
            true => rng.between(1, 15) as u8,
            false => rng.byte(),
        };
        let block_type = if block_type == 12 { 13 } else { block_type };
        self.blocks.push(self.bytes.len());
        self.bytes.extend([block_type, rng.byte()]);
        self.bytes.extend((after_first as u16).to_be_bytes());
        self.put_random(rng, after_first);
    }
}

/// A report block from the group on, without the presented field.
fn report_fields(report: &Report) -> Vec<u8> {
    [
        &report.group.to_be_bytes()[..],
        &report.media.to_be_bytes(),
        &report.received.to_be_bytes(),
        &report.rtp.to_be_bytes(),
    ]
    .concat()
}

/// A settings packet behind its header.
fn settings_fields(settings: &Settings) -> Vec<u8> {
    [
        &settings.source.to_be_bytes()[..],
        &settings.media.to_be_bytes(),
        &settings.group.to_be_bytes(),
        &settings.received.to_be_bytes(),
        &settings.rtp.to_be_bytes(),
        &settings.presented.to_be_bytes(),
    ]
    .concat()
}

/// A valid compound with one to three changes.
fn mutated(rng: &mut Rng, start: Start) -> Vec<u8> {
    let mut compound = valid(rng, start);
    spoil(rng, &mut compound);
    compound.bytes
}

/// One to three changes.
pub fn spoil(rng: &mut Rng, compound: &mut Compound) {
    let changes = rng.pick(&[1, 1, 1, 2, 3]);
    for _ in 0..changes {
        mutate(rng, compound);
    }
}

/// Changes the bytes alone; the places stay those of the valid compound, and
/// a change at a place that an earlier one has cut off is left out.
fn mutate(rng: &mut Rng, compound: &mut Compound) {
    let packet = rng.pick(&compound.packets);
    let block = match compound.blocks.is_empty() {
        true => packet,
        false => rng.pick(&compound.blocks),
    };
    let bytes = &mut compound.bytes;
    match rng.below(24) {
        0 => change_bits(rng, bytes),
        1 => change_bytes(rng, bytes),
        2 => bytes.truncate(rng.below(bytes.len() + 1)),
        3 => bytes.truncate(rng.below(bytes.len() / 4 + 1) * 4),
        4 => bytes.extend(rng.bytes(3)),
        5 => append_words(rng, bytes),
        6 => grow_past_longest(rng, bytes),
        7 | 8 => nudge_length(rng, bytes, packet),
        9 | 10 => nudge_length(rng, bytes, block),
        11 => nudge_count(rng, bytes, packet),
        12 => set(bytes, 0, |head| head | 0x20),
        13 => set(bytes, packet, |head| head | 0x20),
        14 => spoil_padding(rng, compound),
        15 => {
            let packet_type = rng.pick(&[199, 200, 201, 202, 203, 207, 211, 212]);
            set(bytes, packet + 1, |_| packet_type);
        }
        16 => {
            let version = rng.pick(&[0, 0x40, 0xC0]);
            set(bytes, packet, |head| head & 0x3F | version);
        }
        17 => drop_first_packet(compound),
        18..=20 => set(bytes, block, |_| 12),
        21 => pad_first(rng, compound),
        22 => shorten_first(compound),
        _ => shift_words(rng, bytes),
    }
}

fn set(bytes: &mut [u8], at: usize, change: impl Fn(u8) -> u8) {
    if let Some(byte) = bytes.get_mut(at) {
        *byte = change(*byte);
    }
}

fn change_bits(rng: &mut Rng, bytes: &mut [u8]) {
    for _ in 0..rng.between(1, 4) {
        let at = rng.below(bytes.len().max(1));
        let bit = 1 << rng.below(8);
        set(bytes, at, |byte| byte ^ bit);
    }
}

fn change_bytes(rng: &mut Rng, bytes: &mut [u8]) {
    for _ in 0..rng.between(1, 4) {
        let at = rng.below(bytes.len().max(1));
        let value = rng.byte();
        set(bytes, at, |_| value);
    }
}

/// Words that are random, zero or a plausible start.
fn append_words(rng: &mut Rng, bytes: &mut Vec<u8>) {
    for _ in 0..rng.between(1, 4) {
        let word = plausible_word(rng);
        bytes.extend(word.to_be_bytes());
    }
}

/// One further packet that ends behind byte 2,048.
fn grow_past_longest(rng: &mut Rng, bytes: &mut Vec<u8>) {
    let length = (LONGEST / 4 + rng.between(1, 12)) * 4;
    if bytes.len() + 4 <= length {
        let words = (length - bytes.len()) / 4 - 1;
        bytes.extend([0x80, 205, (words >> 8) as u8, words as u8]);
        bytes.resize(length, 0);
    }
}

/// Makes the length field of a packet or block one more or one less.
fn nudge_length(rng: &mut Rng, bytes: &mut [u8], start: usize) {
    if let Some([high, low]) = bytes.get_mut(start + 2..start + 4) {
        let length = u16::from_be_bytes([*high, *low]);
        let nudged = match rng.chance(50) {
            true => length.wrapping_add(1),
            false => length.wrapping_sub(1),
        };
        [*high, *low] = nudged.to_be_bytes();
    }
}

fn nudge_count(rng: &mut Rng, bytes: &mut [u8], packet: usize) {
    let step = rng.pick(&[1, 31]);
    set(bytes, packet, |head| {
        head & 0xE0 | head.wrapping_add(step) & 0x1F
    });
}

/// Sets P on the last packet, with a padding count of each faulty kind.
fn spoil_padding(rng: &mut Rng, compound: &mut Compound) {
    let last = *compound.packets.last().expect("a compound has packets");
    let bytes = &mut compound.bytes;
    let packet = bytes.len().saturating_sub(last);
    let count = match rng.below(4) {
        0 => 0,
        // Small enough, but not a multiple of 4.
        1 => (rng.below((packet / 4).clamp(1, 60)) * 4 + rng.between(1, 3)) as u8,
        // The whole packet, then a word more than that.
        2 => packet.min(252) as u8,
        _ => (packet + 4).min(252) as u8,
    };
    set(bytes, last, |head| head | 0x20);
    if let Some(end) = bytes.last_mut() {
        *end = count;
    }
}

/// Sets P on the first packet and adds padding to it that would be good on a
/// last packet which is not the first.
fn pad_first(rng: &mut Rng, compound: &mut Compound) {
    let end = *compound.packets.get(1).unwrap_or(&compound.bytes.len());
    let bytes = &mut compound.bytes;
    if end > bytes.len() || end < 4 {
        return;
    }
    let words = rng.between(1, 3);
    let mut padding = rng.bytes(4 * words);
    padding[4 * words - 1] = 4 * words as u8;
    bytes.splice(end..end, padding);
    let length = (end / 4 + words - 1) as u16;
    bytes[0] |= 0x20;
    bytes[2..4].copy_from_slice(&length.to_be_bytes());
}

/// Takes the last word off the first packet's content; its count stays.
fn shorten_first(compound: &mut Compound) {
    let end = *compound.packets.get(1).unwrap_or(&compound.bytes.len());
    let bytes = &mut compound.bytes;
    if end > bytes.len() || end < 8 {
        return;
    }
    bytes.drain(end - 4..end);
    let length = (end / 4 - 2) as u16;
    bytes[2..4].copy_from_slice(&length.to_be_bytes());
}

fn drop_first_packet(compound: &mut Compound) {
    if let Some(&second) = compound.packets.get(1) {
        let end = second.min(compound.bytes.len());
        compound.bytes.drain(..end);
    }
}

/// Inserts or removes a word, so that what follows stands elsewhere.
fn shift_words(rng: &mut Rng, bytes: &mut Vec<u8>) {
    let words = bytes.len() / 4;
    if words == 0 {
        return;
    }
    let at = rng.below(words) * 4;
    match rng.chance(50) {
        true => drop(bytes.drain(at..at + 4)),
        false => {
            let word = plausible_word(rng).to_be_bytes();
            bytes.splice(at..at, word);
        }
    }
}

fn noise(rng: &mut Rng) -> Vec<u8> {
    match rng.below(10) {
        0 => {
            let length = rng.below(2101);
            rng.bytes(length)
        }
        1 => {
            let length = rng.below(8);
            rng.bytes(length)
        }
        2 => {
            let length = rng.below(525) * 4;
            rng.bytes(length)
        }
        3 => {
            let length = rng.below(64) * 4;
            headed(rng.bytes(length))
        }
        4 | 5 => {
            let words = rng.pick(&[4, 16, 64, 522]);
            plausible_words(rng, words)
        }
        6 | 7 => {
            let words = rng.pick(&[4, 16, 64, 510]);
            headed(plausible_words(rng, words))
        }
        _ => plausible_xr(rng),
    }
}

/// Behind an 8-byte RR with count 0.
fn headed(bytes: Vec<u8>) -> Vec<u8> {
    let mut datagram = vec![0x80, 201, 0, 1, 0, 0, 0, 1];
    datagram.extend(bytes);
    datagram
}

fn plausible_words(rng: &mut Rng, most: usize) -> Vec<u8> {
    let words = rng.below(most + 1);
    (0..words)
        .flat_map(|_| plausible_word(rng).to_be_bytes())
        .collect()
}

/// A word that could start a packet or a block, a small number, or any word.
fn plausible_word(rng: &mut Rng) -> u32 {
    let length = rng.below(12) as u32;
    match rng.below(8) {
        0..=3 => {
            let head = 0x80 | rng.pick(&[0, 0, 1, 2, 0x20]);
            let packet_type = rng.pick(&[200, 201, 202, 203, 203, 207, 207, 211]);
            head << 24 | packet_type << 16 | length
        }
        4 | 5 => {
            let block_type = rng.pick(&[1, 4, 12, 12]);
            let length = rng.pick(&[7, 7, length]);
            block_type << 24 | (rng.word() & 0xFF) << 16 | length
        }
        6 => length,
        _ => rng.word(),
    }
}

/// An XR packet to the end, alone or behind an RR, whose blocks are any
/// plausible words.
fn plausible_xr(rng: &mut Rng) -> Vec<u8> {
    let longest = rng.pick(&[8, 30, 500]);
    let words = rng.below(longest);
    let mut packet = vec![0x80, 207, 0, 0, 0, 0, 0, 9];
    for _ in 0..words {
        let length = rng.pick(&[0, 0, 0, 1, 2, 7]);
        let block_type = rng.pick(&[1, 2, 4, 5, 6, 7]);
        let word = match rng.chance(3) {
            true => 0x0C10_0007,
            false => block_type << 24 | length,
        };
        packet.extend(u32::to_be_bytes(word));
    }
    let length = (packet.len() / 4 - 1) as u16;
    packet[2..4].copy_from_slice(&length.to_be_bytes());
    match rng.chance(50) {
        true => headed(packet),
        false => packet,
    }
}

/// A report that may be out of range by any of its fields, more often by one
/// alone than by several.
pub fn report_message(rng: &mut Rng) -> Message {
    let p = match rng.below(10) {
        0 => rng.edge(),
        1..=4 => 0,
        _ => 1,
    };
    let empty = if p == 0 { 85 } else { 15 };
    Message::Report(ReportMessage {
        sender: rng.edge(),
        payload_type: match rng.below(10) {
            0 | 1 => rng.edge(),
            2 => rng.pick(&[0, 1, 127, 128]),
            _ => rng.below(128) as u32,
        },
        p,
        group: rng.edge(),
        media: rng.edge(),
        received: rng.long_edge(),
        rtp: rng.edge(),
        presented: match rng.chance(empty) {
            true => 0,
            false => rng.edge(),
        },
    })
}

pub fn settings_message(rng: &mut Rng) -> Message {
    Message::Settings(SettingsMessage {
        sender: rng.edge(),
        group: rng.edge(),
        media: rng.edge(),
        received: rng.long_edge(),
        rtp: rng.edge(),
        presented: match rng.chance(30) {
            true => 0,
            false => rng.long_edge(),
        },
    })
}

/// The length of a buffer for a message: any, or often one around its size.
pub fn buffer_length(rng: &mut Rng, message: &Message) -> usize {
    let size = message.size();
    match rng.chance(50) {
        true => rng.pick(&[size - 1, size, size + 1, LONGEST_BUFFER]),
        false => rng.between(0, LONGEST_BUFFER),
    }
}

#[cfg(test)]
mod tests {
    use super::*;
    use crate::decoder::decode;
    use crate::items::Refusal;

    /// The generator knows what it wrote, so it can judge the decoder too.
    fn assert_decoded(compound: Compound, start: Start) {
        assert!(compound.bytes.len() <= LONGEST);
        let not_agreed = match compound.needs_reduced_size() {
            true => Err(Refusal::new(4, 0)),
            false => Ok(compound.items.clone()),
        };
        assert!(start == Start::Any || not_agreed.is_ok());
        assert_eq!(decode(&compound.bytes, false), not_agreed);
        assert_eq!(decode(&compound.bytes, true), Ok(compound.items));
    }

    #[test]
    fn valid_compounds_decode_to_the_items_written() {
        let mut rng = Rng::new(seed());
        for _ in 0..25_000 {
            for start in [Start::Report, Start::Any] {
                assert_decoded(valid(&mut rng, start), start);
            }
        }
    }

    #[test]
    fn crowded_compounds_decode_to_the_items_written() {
        let mut rng = Rng::new(seed());
        for _ in 0..5_000 {
            for start in [Start::Report, Start::Any] {
                assert_decoded(crowded(&mut rng, start), start);
            }
        }
    }
}
