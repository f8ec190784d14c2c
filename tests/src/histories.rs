//! A seeded generator of call histories: few and many sources, origins and
//! twins, readings that jump, wrap and repeat, and times at and next to every
//! limit.

use crate::burst::BURST_LIMIT;
use crate::bursts::{burst, burst_in_turn};
use crate::generator::Rng;
use crate::members::{Burst, Call, Opening, Origin, Reading, Record, ReportFields};

const SECOND: u64 = 1 << 32;

/// The greatest NTP age, and the greatest delay.
const LIMIT: u64 = 30 * SECOND;

/// NTP ages at the limits of check 15 and next to them; the last is a unit
/// behind the reading.
const AGES: [u64; 6] = [0, 1, LIMIT - 1, LIMIT, LIMIT + 1, u64::MAX];

/// A presentation step of 30 s.
const STEP_LIMIT: u32 = 30 << 16;

/// The last two full times before the wrap and the first behind it.
const AT_WRAP: [u64; 3] = [u64::MAX - 1, u64::MAX, 0];

/// Presentation steps at both ends, at the limit of check 17 and next to it.
const STEPS: [u32; 6] = [0, 1, STEP_LIMIT - 1, STEP_LIMIT, STEP_LIMIT + 1, u32::MAX];

const RATES: [u32; 6] = [1, 8_000, 44_100, 90_000, 90_000, 192_000];

/// How many reports are remembered, to be repeated and read near their limits.
const REMEMBERED: usize = 24;

#[derive(Clone, Debug, PartialEq, Eq)]
pub enum Step {
    Call(Call),
    Burst(Burst),
    Choose(Reading),
    /// All members are compared.
    Members,
    /// The tally of the member with this number is written into the table. No
    /// history of the generator has it.
    SetTally(u32, u32),
}

#[derive(Clone, Debug, PartialEq, Eq)]
pub struct History {
    pub opening: Opening,
    pub steps: Vec<Step>,
}

/// The next history of a run.
pub fn history(rng: &mut Rng) -> History {
    let (mut history, world) = history_with_world(rng);
    let last = world.some_reading(rng);
    let choices = [Step::Choose(world.clock), Step::Choose(last)];
    history.steps.extend(choices);
    history
}

/// A history, and the world as it leaves it.
pub(crate) fn history_with_world(rng: &mut Rng) -> (History, World) {
    let mut world = World::any(rng);
    let (opening, length) = (world.opening, world.temper.length);
    let mut steps = world.fill(rng);
    steps.extend((0..length).map(|_| world.step(rng)));
    (History { opening, steps }, world)
}

fn opening(rng: &mut Rng) -> Opening {
    let edges = [0, 1, 2, u32::MAX - 1, u32::MAX];
    let rates = [0, 1, 2, 191_999, 192_000, 192_001, u32::MAX];
    let group = match rng.chance(10) {
        true => rng.pick(&edges),
        false => rng.word(),
    };
    let media = match rng.chance(20) {
        true => rng.pick(&edges),
        false => rng.word(),
    };
    let rate = match rng.below(20) {
        0..=1 => rng.pick(&rates),
        2..=4 => rng.between(1, 192_000) as u32,
        _ => rng.pick(&RATES),
    };
    Opening { group, media, rate }
}

/// What a history is like; all but the first five in percent.
struct Temper {
    length: usize,
    sources: usize,
    origins: usize,
    /// Sources that report in turn beforehand.
    filled: usize,
    /// The first so many sources have twins.
    twinned: usize,
    /// Calls from an origin that is not the source's own.
    twins: usize,
    /// Fields at a limit, or wrong.
    edges: usize,
    /// Reports with the times of an earlier one, or nearly those.
    echoes: usize,
    presenting: usize,
    /// Reports presented in the slot in which they were received: step 0.
    wired: usize,
    farewells: usize,
    sweeps: usize,
    jumps: usize,
    bursts: usize,
}

impl Temper {
    fn any(rng: &mut Rng) -> Self {
        match rng.below(10) {
            0..=1 => Temper::crowded(rng),
            2 => Temper::filled(rng),
            3 => Temper::twinned(rng),
            _ => Temper::mixed(rng),
        }
    }

    /// Enough sources to fill the table, and calm enough to keep it so.
    fn crowded(rng: &mut Rng) -> Self {
        Temper {
            length: rng.between(150, 450),
            sources: rng.between(60, 70),
            origins: rng.pick(&[1, 2, 70]),
            filled: 0,
            twinned: usize::MAX,
            twins: 2,
            edges: rng.pick(&[1, 3]),
            echoes: rng.pick(&[5, 30]),
            presenting: rng.pick(&[0, 50, 100]),
            wired: rng.pick(&[5, 25, 50]),
            farewells: rng.pick(&[1, 4]),
            sweeps: 1,
            jumps: 0,
            bursts: 2,
        }
    }

    /// A table that is full or about to be, so that the last places are taken.
    fn filled(rng: &mut Rng) -> Self {
        Temper {
            length: rng.between(1, 8),
            sources: rng.between(80, 120),
            filled: rng.between(62, 68),
            farewells: rng.pick(&[4, 10]),
            bursts: 30,
            ..Temper::crowded(rng)
        }
    }

    /// Many calls come from twins of few numbers, among members that come and go.
    fn twinned(rng: &mut Rng) -> Self {
        Temper {
            length: rng.between(50, 400),
            sources: rng.pick(&[2, 4, 8, 12, 66]),
            origins: rng.pick(&[2, 3, 8]),
            twinned: rng.pick(&[1, 2, 4]),
            twins: rng.pick(&[40, 60, 90]),
            edges: rng.pick(&[2, 20]),
            farewells: rng.pick(&[5, 20, 40]),
            sweeps: rng.pick(&[1, 4]),
            jumps: rng.pick(&[0, 1, 4]),
            bursts: 2,
            ..Temper::mixed(rng)
        }
    }

    fn mixed(rng: &mut Rng) -> Self {
        let longest = rng.pick(&[4, 20, 80, 200]);
        Temper {
            length: rng.between(1, longest),
            sources: rng.pick(&[1, 2, 2, 3, 8, 30]),
            origins: rng.pick(&[1, 2, 3, 8, 40]),
            filled: 0,
            twinned: usize::MAX,
            twins: rng.pick(&[2, 10, 40]),
            edges: rng.pick(&[2, 5, 20]),
            echoes: rng.pick(&[2, 20, 60]),
            presenting: rng.pick(&[0, 5, 50, 90, 100]),
            wired: rng.pick(&[5, 25, 50]),
            farewells: rng.pick(&[3, 10, 20]),
            sweeps: rng.pick(&[1, 4, 10]),
            jumps: rng.pick(&[0, 2, 10]),
            bursts: rng.pick(&[2, 6]),
        }
    }
}

/// The clocks and the senders of a history.
pub(crate) struct World {
    pub(crate) opening: Opening,
    temper: Temper,
    sources: Vec<u32>,
    origins: Vec<Origin>,
    pub(crate) clock: Reading,
    recent: Vec<ReportFields>,
}

impl World {
    /// Before its first call.
    pub(crate) fn any(rng: &mut Rng) -> Self {
        let opening = opening(rng);
        let temper = Temper::any(rng);
        World {
            opening,
            sources: sources(rng, temper.sources),
            origins: origins(rng, temper.origins),
            clock: first_reading(rng, opening.rate),
            recent: Vec::new(),
            temper,
        }
    }

    /// How many sources report in turn beforehand.
    pub(crate) fn filled(&self) -> usize {
        self.temper.filled
    }

    /// A report of each of the first sources, in turn; at times as many of them as
    /// can be come in a burst. Any history may start with a burst.
    fn fill(&mut self, rng: &mut Rng) -> Vec<Step> {
        let filled = self.temper.filled;
        let mut steps = Vec::new();
        let mut done = 0;
        if filled > 0 && rng.chance(30) {
            done = filled.min(BURST_LIMIT);
            steps.push(Step::Burst(burst_in_turn(rng, self, done)));
        } else if rng.chance(8) {
            steps.push(Step::Burst(burst(rng, self)));
        }
        let fill = |index: usize| {
            self.advance(rng);
            let (source, origin) = self.own_sender(index);
            Step::Call(self.report_of(rng, source, origin))
        };
        steps.extend((done..filled).map(fill));
        steps
    }

    fn step(&mut self, rng: &mut Rng) -> Step {
        if rng.chance(self.temper.bursts) {
            self.advance(rng);
            return Step::Burst(burst(rng, self));
        }
        match rng.below(100) {
            0..=17 => Step::Choose(self.some_reading(rng)),
            18..=21 => Step::Members,
            _ => Step::Call(self.call(rng)),
        }
    }

    pub(crate) fn call(&mut self, rng: &mut Rng) -> Call {
        self.advance(rng);
        let kind = rng.below(100);
        let sweeps = self.temper.sweeps;
        if kind < sweeps {
            return Call::Sweep(self.some_reading(rng));
        }
        let (source, origin) = self.sender(rng);
        if kind < sweeps + self.temper.farewells {
            return Call::Farewell(source, origin);
        }
        self.report_of(rng, source, origin)
    }

    fn report_of(&mut self, rng: &mut Rng, source: u32, origin: Origin) -> Call {
        let report = self.report(rng);
        let told = Record {
            source,
            origin,
            report,
        };
        Call::Report(told, self.clock)
    }

    fn own_origin(&self, index: usize) -> Origin {
        self.origins[index % self.origins.len()]
    }

    /// One of the sources with its own origin; behind the last, they start again.
    pub(crate) fn own_sender(&self, index: usize) -> (u32, Origin) {
        let index = index % self.sources.len();
        (self.sources[index], self.own_origin(index))
    }

    /// One of the sources with another origin.
    pub(crate) fn twin(&self, rng: &mut Rng, index: usize) -> (u32, Origin) {
        let index = index % self.sources.len();
        (self.sources[index], self.twin_origin(rng, index))
    }

    /// A source with its own origin, or at times with another.
    pub(crate) fn sender(&self, rng: &mut Rng) -> (u32, Origin) {
        let (sources, twin) = (self.sources.len(), rng.chance(self.temper.twins));
        let index = match twin {
            true => rng.below(sources.min(self.temper.twinned)),
            false => rng.below(sources),
        };
        let source = match rng.chance(1) {
            true => rng.word(),
            false => self.sources[index],
        };
        let origin = match twin {
            true => self.twin_origin(rng, index),
            false => self.own_origin(index),
        };
        (source, origin)
    }

    /// A source whose own origin this is, or at times another or a new one.
    pub(crate) fn source_at(&self, rng: &mut Rng, origin: &Origin) -> u32 {
        let own = |index: &usize| self.own_origin(*index) == *origin;
        let own: Vec<usize> = (0..self.sources.len()).filter(own).collect();
        match rng.below(20) {
            0 => rng.word(),
            2.. if !own.is_empty() => self.sources[rng.pick(&own)],
            _ => self.sender(rng).0,
        }
    }

    /// A source at this origin, as often as the temper lets members go, or any
    /// number.
    pub(crate) fn leaver(&self, rng: &mut Rng, origin: &Origin) -> u32 {
        match rng.chance(4 * self.temper.farewells) {
            true => self.source_at(rng, origin),
            false => rng.word(),
        }
    }

    /// Another sender's origin, or the own one with a byte changed.
    fn twin_origin(&self, rng: &mut Rng, index: usize) -> Origin {
        match rng.chance(50) {
            true => rng.pick(&self.origins),
            false => neighbour(rng, &self.own_origin(index)),
        }
    }

    /// Lets time pass, or not; at times the clocks jump.
    pub(crate) fn advance(&mut self, rng: &mut Rng) {
        if rng.chance(self.temper.jumps) {
            self.clock = self.jump(rng);
            return;
        }
        let passed = match rng.below(10) {
            0..=3 => 0,
            4..=8 => upto(rng, SECOND / 32),
            _ => upto(rng, SECOND / 2),
        };
        self.clock = self.later(passed);
    }

    fn jump(&self, rng: &mut Rng) -> Reading {
        let Reading { ntp, rtp } = self.clock;
        match rng.below(6) {
            0 => self.later(upto(rng, 40 * SECOND)),
            1 => self.later(upto(rng, 10 * SECOND).wrapping_neg()),
            2 => Reading {
                ntp,
                rtp: rng.word(),
            },
            3 => Reading {
                ntp: ntp.wrapping_sub(upto(rng, 5 * SECOND)),
                rtp,
            },
            4 => self.some_reading(rng),
            _ => first_reading(rng, self.opening.rate),
        }
    }

    /// Both clocks after a time, which may be negative.
    pub(crate) fn later(&self, passed: u64) -> Reading {
        Reading {
            ntp: self.clock.ntp.wrapping_add(passed),
            rtp: self.clock.rtp.wrapping_add(self.ticks(passed)),
        }
    }

    /// What the media clock counts in a time, which may be negative.
    fn ticks(&self, passed: u64) -> u32 {
        let ticks = i128::from(passed as i64) * i128::from(self.opening.rate);
        (ticks >> 32) as u32
    }

    /// As AGES, of check 16.
    fn media_ages(&self) -> [u32; 6] {
        let most = self.opening.rate.wrapping_mul(60);
        let (less, more) = (most.wrapping_sub(1), most.wrapping_add(1));
        [0, 1, less, most, more, u32::MAX]
    }

    /// A reading for sweeping and choosing.
    pub(crate) fn some_reading(&self, rng: &mut Rng) -> Reading {
        match rng.below(20) {
            0..=9 => self.clock,
            10..=12 => self.later(upto(rng, 35 * SECOND)),
            13 => self.later(upto(rng, 5 * SECOND).wrapping_neg()),
            14 => first_reading(rng, self.opening.rate),
            _ if self.recent.is_empty() => self.clock,
            _ => self.at_limit(rng),
        }
    }

    /// A reading at which a remembered report is just fresh, or just not.
    fn at_limit(&self, rng: &mut Rng) -> Reading {
        let report = rng.pick(&self.recent);
        let age = match rng.chance(70) {
            true => rng.pick(&AGES),
            false => upto(rng, LIMIT),
        };
        let media_age = match rng.chance(40) {
            true => rng.pick(&self.media_ages()),
            false => self.ticks(age),
        };
        Reading {
            ntp: report.received.wrapping_add(age),
            rtp: report.rtp.wrapping_add(media_age),
        }
    }

    /// A report at the clock's reading.
    pub(crate) fn report(&mut self, rng: &mut Rng) -> ReportFields {
        let mut report = match !self.recent.is_empty() && rng.chance(self.temper.echoes) {
            true => self.echo(rng),
            false => self.fresh_report(rng),
        };
        if rng.chance(self.temper.edges) {
            self.spoil_identifiers(rng, &mut report);
        }
        self.remember(rng, report);
        report
    }

    fn remember(&mut self, rng: &mut Rng, report: ReportFields) {
        if self.recent.len() < REMEMBERED {
            self.recent.push(report);
        } else {
            let place = rng.below(REMEMBERED);
            self.recent[place] = report;
        }
    }

    fn fresh_report(&self, rng: &mut Rng) -> ReportFields {
        let received = self.received(rng);
        ReportFields {
            received,
            group: self.opening.group,
            media: self.opening.media,
            rtp: self.rtp(rng, received),
            presented: self.presented(rng, received),
            payload_type: rng.byte(),
            p: u8::from(rng.chance(self.temper.presenting)),
        }
    }

    fn received(&self, rng: &mut Rng) -> u64 {
        // A unit later, these are the last full time, 0 and 1.
        let at_wrap = rng.pick(&AT_WRAP);
        if self.clock.ntp.wrapping_sub(at_wrap) <= LIMIT && rng.chance(20) {
            return at_wrap;
        }
        let age = match rng.below(10) {
            _ if rng.chance(self.temper.edges) => match rng.chance(90) {
                true => rng.pick(&AGES),
                false => rng.number(),
            },
            0..=7 => upto(rng, 3 * SECOND),
            _ => upto(rng, 20 * SECOND),
        };
        let received = self.clock.ntp.wrapping_sub(age);
        // The low 16 bits are lost in the presented time.
        match rng.below(6) {
            0 if age > 65_536 => received & !0xFFFF,
            1 if age > 65_536 => received & !0xFFFF | 1,
            2 if age > 65_536 => received | 0xFFFF,
            _ => received,
        }
    }

    /// As old as the received time, a little off, or at a limit.
    fn rtp(&self, rng: &mut Rng, received: u64) -> u32 {
        let age = self.ticks(self.clock.ntp.wrapping_sub(received));
        let age = match rng.below(10) {
            _ if rng.chance(self.temper.edges) => match rng.chance(90) {
                true => rng.pick(&self.media_ages()),
                false => rng.word(),
            },
            0..=5 => age,
            6..=8 => age.saturating_add(rng.below(100) as u32),
            _ => age.saturating_sub(rng.below(100) as u32),
        };
        self.clock.rtp.wrapping_sub(age)
    }

    fn presented(&self, rng: &mut Rng, received: u64) -> u32 {
        let m = (received >> 16) as u32;
        if rng.chance(self.temper.wired) {
            return m;
        }
        if rng.chance(self.temper.edges) {
            return match rng.below(4) {
                0 => 0,
                1 => rng.word(),
                _ => m.wrapping_add(rng.pick(&STEPS)),
            };
        }
        let longest = rng.pick(&[1, 40, 65_536, 131_072, STEP_LIMIT as usize]);
        m.wrapping_add(rng.between(1, longest) as u32)
    }

    /// The times of a remembered report or nearly those, so that members are
    /// equally late, or almost.
    fn echo(&self, rng: &mut Rng) -> ReportFields {
        let mut report = rng.pick(&self.recent);
        report.group = self.opening.group;
        report.media = self.opening.media;
        let one = rng.pick(&[1, u32::MAX]);
        match rng.below(11) {
            0 => report.rtp = report.rtp.wrapping_add(one),
            1 => report.presented = report.presented.wrapping_add(one),
            2 => report.received = report.received.wrapping_add(i64::from(one as i32) as u64),
            3 => report.p ^= 1,
            4 | 5 => self.shift(rng, &mut report),
            6 | 7 => wire(rng, &mut report),
            _ => {}
        }
        report
    }

    /// Whole seconds earlier on all clocks: the lateness stays.
    fn shift(&self, rng: &mut Rng, report: &mut ReportFields) {
        let seconds = rng.between(1, 9) as u32;
        let ticks = seconds.wrapping_mul(self.opening.rate);
        report.received = report.received.wrapping_sub(u64::from(seconds) << 32);
        report.rtp = report.rtp.wrapping_sub(ticks);
        report.presented = report.presented.wrapping_sub(seconds << 16);
    }

    fn spoil_identifiers(&self, rng: &mut Rng, report: &mut ReportFields) {
        match rng.below(5) {
            0 => report.group ^= 1 << rng.below(32),
            1 => report.media ^= 1 << rng.below(32),
            2 => report.group = rng.pick(&[0, u32::MAX]),
            3 => report.media = rng.word(),
            _ => std::mem::swap(&mut report.group, &mut report.media),
        }
    }
}

/// Received around the start of its presented slot, and presented a unit later:
/// beside the slower report, the unit of delay decides.
fn wire(rng: &mut Rng, report: &mut ReportFields) {
    let m = (report.received >> 16) as u32;
    let step = u64::from(report.presented.wrapping_sub(m));
    let start = (report.received & !0xFFFF).wrapping_add(step << 16);
    report.received = start.wrapping_sub(rng.below(3) as u64);
    report.presented = (report.received >> 16) as u32;
}

/// From 0 up to `bound`, without it.
fn upto(rng: &mut Rng, bound: u64) -> u64 {
    rng.number() % bound
}

/// Any reading, often shortly before or after one that wraps.
fn first_reading(rng: &mut Rng, rate: u32) -> Reading {
    let wrap = match rng.below(6) {
        0..=2 => 0,
        // The short times wrap too.
        3 => u64::from(rng.word()) << 48,
        4 => rng.number(),
        _ => 1 << 63,
    };
    let soon = upto(rng, 20 * SECOND).wrapping_sub(10 * SECOND);
    let media_wrap = match rng.below(6) {
        0..=2 => 0,
        3 | 4 => rng.word(),
        _ => 1 << 31,
    };
    let media_soon = upto(rng, 20 * u64::from(rate) + 1) as u32;
    Reading {
        ntp: wrap.wrapping_add(soon),
        rtp: (media_soon.wrapping_add(media_wrap)).wrapping_sub(rate.wrapping_mul(10)),
    }
}

/// Distinct numbers: near each other, at an end of the range, or any.
fn sources(rng: &mut Rng, count: usize) -> Vec<u32> {
    let step: u32 = rng.pick(&[1, 1 << 8, 1 << 16, 0x9E37_79B1]);
    let first = match rng.below(3) {
        0 => 0,
        1 => u32::MAX,
        _ => rng.word(),
    };
    let number = |index: usize| first.wrapping_add(step.wrapping_mul(index as u32));
    (0..count).map(number).collect()
}

/// Origins that often differ in a single byte.
fn origins(rng: &mut Rng, count: usize) -> Vec<Origin> {
    let mut origins = vec![any_origin(rng)];
    while origins.len() < count {
        let known = rng.pick(&origins);
        origins.push(match rng.chance(70) {
            true => neighbour(rng, &known),
            false => any_origin(rng),
        });
    }
    origins
}

fn any_origin(rng: &mut Rng) -> Origin {
    match rng.chance(10) {
        true => Origin::default(),
        false => Origin {
            address: std::array::from_fn(|_| rng.byte()),
            port: rng.word() as u16,
        },
    }
}

/// One of the eighteen bytes changed.
fn neighbour(rng: &mut Rng, origin: &Origin) -> Origin {
    let mut origin = *origin;
    let change = rng.pick(&[1, 0x80, 0xFF]);
    match rng.below(20) {
        byte @ 0..=15 => origin.address[byte] ^= change,
        16 | 17 => origin.port ^= u16::from(change),
        _ => origin.port ^= u16::from(change) << 8,
    }
    origin
}
