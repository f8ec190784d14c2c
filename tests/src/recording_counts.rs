//! What was met of recordings.

use crate::compare_replay::Single;
use crate::counts::{answer_name, lines, Line};
use crate::decoder::decode;
use crate::items::Item;
use crate::recording::{read, read_opening, BadLayout, Recording};
use crate::recording::{ADDRESS, LENGTH, PORT, RTP};
use crate::recording::{ENTRY_LIMIT, RECORDING_LIMIT};
use crate::recordings::{Change, Replay};
use crate::replay::ENTRY_ROW;
use prunepocket_sys::RecordingAnswered;

/// The answers that a recording can get: 0 is no refusal.
pub const NUMBERS: [usize; 4] = [0, 25, 12, 10];

/// The numbers that an entry can have.
pub const ENTRY_NUMBERS: [usize; 15] = [0, 1, 2, 3, 4, 5, 6, 7, 13, 14, 15, 16, 17, 18, 19];

/// The longest datagram that is read.
const LONGEST_DATAGRAM: usize = 2048;

/// How often each thing was met.
#[derive(Default)]
pub struct Counts {
    /// By the answer, a refusal's number or 0.
    pub answers: [u64; 26],
    pub changes: Changes,
    pub bad_layouts: BadLayouts,
    pub openings: Openings,
    pub orders: Orders,
    pub rows: Rows,
    pub sizes: Sizes,
    /// Entries of recordings that were taken, by their number.
    pub entries: [u64; 20],
    pub contents: Contents,
    pub choices: Choices,
}

/// Changes of the bytes, by what they change.
#[derive(Default)]
pub struct Changes {
    head: [u64; 4],
    contents: [u64; 5],
    divided: u64,
    raised: u64,
    turned: u64,
    cut: u64,
    added: u64,
}

/// Recordings refused with 25, by the reason.
#[derive(Default)]
pub struct BadLayouts {
    byte_too_long: u64,
    too_long: u64,
    /// Too long, though its first 65,536 bytes are a recording.
    good_front: u64,
    head_cut: u64,
    one_entry_more: u64,
    many_entries: u64,
    contents_cut: u64,
    byte_short: u64,
    bodies_cut: u64,
    byte_behind: u64,
    bytes_behind: u64,
}

/// Recordings refused with 12, by the reason.
#[derive(Default)]
pub struct Openings {
    group_zero: u64,
    last_group: u64,
    rate_zero: u64,
    fast_rate: u64,
    without_entries: u64,
}

/// Recordings to which a later refusal applies, too.
#[derive(Default)]
pub struct Orders {
    layout_before_opening: u64,
    layout_before_rows: u64,
    opening_before_rows: u64,
}

/// Lengths of the rows of recordings that are refused with 10 or not at all.
#[derive(Default)]
pub struct Rows {
    exact: u64,
    longer: u64,
    one_short: u64,
    empty: u64,
    /// None needed and none lent.
    none: u64,
}

/// Recordings that were taken.
#[derive(Default)]
pub struct Sizes {
    no_entries: u64,
    one_entry: u64,
    last_but_one: u64,
    most_entries: u64,
    longest: u64,
}

/// Entries of recordings that were taken.
#[derive(Default)]
pub struct Contents {
    settings: u64,
    farewells: u64,
    /// With an accepted item and a refused one.
    mixed: u64,
    /// Of several refusals.
    several: u64,
    empty_bodies: u64,
    longest_bodies: u64,
    long_bodies: u64,
    /// With 256 items or more.
    many_items: u64,
    /// From another origin than the entry before.
    origins: u64,
}

/// Recordings that were taken, by their choice.
#[derive(Default)]
pub struct Choices {
    by_presentation: u64,
    by_arrival: u64,
    /// By presentation, one unit after it was received.
    wired: u64,
    /// None, though reports were accepted.
    none_fresh: u64,
    /// A target, though the reader refuses the last datagram.
    after_refused: u64,
}

impl Counts {
    pub fn recordings(&self) -> u64 {
        self.answers.iter().sum()
    }

    pub(crate) fn count(
        &mut self,
        replay: &Replay,
        bytes: &[u8],
        replayed: &RecordingAnswered,
        singles: &[Single],
    ) {
        self.answers[replayed.number as usize] += 1;
        for change in &replay.changes {
            self.changes.count(change);
        }
        let length = replay.rows_length();
        match read(bytes) {
            Err(bad) => {
                self.bad_layouts.count(bytes, bad);
                self.orders.count_layout(bytes, length);
            }
            Ok(recording) if replayed.number == 12 => {
                self.openings.count(&recording);
                let short = length < ENTRY_ROW * recording.entries.len();
                self.orders.opening_before_rows += u64::from(short);
            }
            Ok(recording) => {
                self.rows.count(recording.entries.len(), length);
                if replayed.number == 0 {
                    self.count_taken(&recording, replayed, singles);
                }
            }
        }
    }

    fn count_taken(
        &mut self,
        recording: &Recording,
        replayed: &RecordingAnswered,
        singles: &[Single],
    ) {
        self.sizes.count(recording);
        for single in singles {
            self.entries[single.row[2] as usize] += 1;
        }
        self.contents.count(recording, singles);
        self.choices.count(replayed, singles);
    }

    pub fn lines(&self) -> Vec<Line> {
        let mut all = self.changes.lines();
        all.extend(self.bad_layouts.lines());
        all.extend(self.openings.lines());
        all.extend(self.orders.lines());
        all.extend(self.rows.lines());
        all.extend(self.sizes.lines());
        all.extend(self.contents.lines());
        all.extend(self.choices.lines());
        all
    }

    /// What answers and entries' numbers there were.
    pub fn answer_lines(&self) -> Vec<Line> {
        let recording = |number: usize| {
            let name = format!("recordings {}", answer_name(number));
            (name, self.answers[number])
        };
        let entry = |number: usize| {
            let name = match number {
                0 => String::from("entries without a refusal"),
                _ => format!("entries, first refusal {number}"),
            };
            (name, self.entries[number])
        };
        let recordings = NUMBERS.map(recording).into_iter();
        recordings.chain(ENTRY_NUMBERS.map(entry)).collect()
    }
}

impl Changes {
    fn count(&mut self, change: &Change) {
        let kind = match change {
            Change::Head(field, _) => &mut self.head[*field],
            Change::Contents(_, byte, _) => &mut self.contents[contents_field(*byte)],
            Change::Divided(..) => &mut self.divided,
            Change::Raised(_) => &mut self.raised,
            Change::Turned(..) => &mut self.turned,
            Change::Cut(_) => &mut self.cut,
            Change::Added(_) => &mut self.added,
        };
        *kind += 1;
    }

    fn lines(&self) -> Vec<Line> {
        let [count, group, media, rate] = self.head;
        let [ntp, rtp, address, port, length] = self.contents;
        lines([
            ("entry count changed", count),
            ("group changed", group),
            ("media source changed", media),
            ("rate changed", rate),
            ("an entry's N changed", ntp),
            ("an entry's R changed", rtp),
            ("an entry's address changed", address),
            ("an entry's port changed", port),
            ("an entry's length changed", length),
            ("bodies divided otherwise", self.divided),
            ("sum of lengths 2^16 more", self.raised),
            ("any byte changed", self.turned),
            ("bytes cut off", self.cut),
            ("bytes added", self.added),
        ])
    }
}

/// The field of an entry's contents that a byte belongs to.
fn contents_field(byte: usize) -> usize {
    let starts = [RTP, ADDRESS, PORT, LENGTH];
    starts.iter().filter(|&&start| start <= byte).count()
}

impl BadLayouts {
    fn count(&mut self, bytes: &[u8], bad: BadLayout) {
        let reason = match bad {
            BadLayout::TooLong if bytes.len() == RECORDING_LIMIT + 1 => &mut self.byte_too_long,
            BadLayout::TooLong => &mut self.too_long,
            BadLayout::HeadCut => &mut self.head_cut,
            BadLayout::TooManyEntries if bytes.starts_with(&[0, 0, 1, 1]) => {
                &mut self.one_entry_more
            }
            BadLayout::TooManyEntries => &mut self.many_entries,
            BadLayout::ContentsCut => &mut self.contents_cut,
            BadLayout::BodiesCut(1) => &mut self.byte_short,
            BadLayout::BodiesCut(_) => &mut self.bodies_cut,
            BadLayout::BytesBehind(1) => &mut self.byte_behind,
            BadLayout::BytesBehind(_) => &mut self.bytes_behind,
        };
        *reason += 1;
        if let (BadLayout::TooLong, Some(front)) = (bad, bytes.get(..RECORDING_LIMIT)) {
            self.good_front += u64::from(read(front).is_ok());
        }
    }

    fn lines(&self) -> Vec<Line> {
        lines([
            ("25, a byte over 65,536", self.byte_too_long),
            ("25, more bytes", self.too_long),
            ("25, more behind 65,536", self.good_front),
            ("25, head cut short", self.head_cut),
            ("25, 257 entries", self.one_entry_more),
            ("25, more entries", self.many_entries),
            ("25, contents cut short", self.contents_cut),
            ("25, bodies a byte short", self.byte_short),
            ("25, bodies cut short", self.bodies_cut),
            ("25, a byte behind the bodies", self.byte_behind),
            ("25, more behind the bodies", self.bytes_behind),
        ])
    }
}

impl Openings {
    fn count(&mut self, recording: &Recording) {
        let opening = &recording.opening;
        self.group_zero += u64::from(opening.group == 0);
        self.last_group += u64::from(opening.group == u32::MAX);
        self.rate_zero += u64::from(opening.rate == 0);
        self.fast_rate += u64::from(opening.rate > 192_000);
        self.without_entries += u64::from(recording.entries.is_empty());
    }

    fn lines(&self) -> Vec<Line> {
        lines([
            ("12, group 0", self.group_zero),
            ("12, group 4294967295", self.last_group),
            ("12, rate 0", self.rate_zero),
            ("12, rate above 192000", self.fast_rate),
            ("12, no entries", self.without_entries),
        ])
    }
}

impl Orders {
    /// A bad layout whose head, and so its entry count and opening, is there.
    fn count_layout(&mut self, bytes: &[u8], length: usize) {
        let Some(opening) = read_opening(bytes) else {
            return;
        };
        let opens = !matches!(opening.group, 0 | u32::MAX) && (1..=192_000).contains(&opening.rate);
        self.layout_before_opening += u64::from(!opens);
        let entries = bytes.first_chunk().copied().map_or(0, u32::from_be_bytes);
        let short = (length as u64) < ENTRY_ROW as u64 * u64::from(entries);
        self.layout_before_rows += u64::from(short);
    }

    fn lines(&self) -> Vec<Line> {
        lines([
            ("25 before 12", self.layout_before_opening),
            ("25 before 10", self.layout_before_rows),
            ("12 before 10", self.opening_before_rows),
        ])
    }
}

impl Rows {
    fn count(&mut self, entries: usize, length: usize) {
        let needed = ENTRY_ROW * entries;
        self.exact += u64::from(length == needed);
        self.longer += u64::from(length > needed);
        self.one_short += u64::from(length + 1 == needed);
        self.empty += u64::from(length == 0 && needed > 0);
        self.none += u64::from(length == 0 && needed == 0);
    }

    fn lines(&self) -> Vec<Line> {
        lines([
            ("rows long enough", self.exact),
            ("rows longer", self.longer),
            ("rows one number short", self.one_short),
            ("no rows beside entries", self.empty),
            ("no rows and no entries", self.none),
        ])
    }
}

impl Sizes {
    fn count(&mut self, recording: &Recording) {
        match recording.entries.len() {
            0 => self.no_entries += 1,
            1 => self.one_entry += 1,
            count if count + 1 == ENTRY_LIMIT => self.last_but_one += 1,
            ENTRY_LIMIT => self.most_entries += 1,
            _ => {}
        }
        self.longest += u64::from(recording.size() == RECORDING_LIMIT);
    }

    fn lines(&self) -> Vec<Line> {
        lines([
            ("taken without entries", self.no_entries),
            ("taken with one entry", self.one_entry),
            ("taken with 255 entries", self.last_but_one),
            ("taken with 256 entries", self.most_entries),
            ("taken with 65,536 bytes", self.longest),
        ])
    }
}

impl Contents {
    fn count(&mut self, recording: &Recording, singles: &[Single]) {
        let entries = &recording.entries;
        for (entry, single) in entries.iter().zip(singles) {
            let items = decode(&entry.body, false).unwrap_or_default();
            let has = |kind: fn(&Item) -> bool| items.iter().any(|item| kind(&item.item));
            self.settings += u64::from(has(|item| matches!(item, Item::Settings(_))));
            self.farewells += u64::from(has(|item| matches!(item, Item::Farewell { .. })));
            let refusals = || single.numbers.iter().filter(|&&number| number != 0);
            self.mixed += u64::from(single.row[1] > 0 && single.row[2] > 0);
            self.several += u64::from(refusals().any(|&number| number != single.row[2]));
            self.empty_bodies += u64::from(entry.body.is_empty());
            self.longest_bodies += u64::from(entry.body.len() == LONGEST_DATAGRAM);
            self.long_bodies += u64::from(entry.body.len() > LONGEST_DATAGRAM);
            self.many_items += u64::from(items.len() >= 256);
        }
        let other_origin = entries
            .windows(2)
            .filter(|pair| pair[0].origin != pair[1].origin);
        self.origins += other_origin.count() as u64;
    }

    fn lines(&self) -> Vec<Line> {
        lines([
            ("entries with settings", self.settings),
            ("entries with farewells", self.farewells),
            ("entries partly accepted", self.mixed),
            ("entries of several refusals", self.several),
            ("entries without a body", self.empty_bodies),
            ("entries of 2,048 bytes", self.longest_bodies),
            ("entries over 2,048 bytes", self.long_bodies),
            ("entries of 256 items or more", self.many_items),
            ("entries of another origin", self.origins),
        ])
    }
}

impl Choices {
    fn count(&mut self, replayed: &RecordingAnswered, singles: &[Single]) {
        let chosen = replayed.choice == 0;
        let target = &replayed.target;
        let arrival = target.presented == 0;
        let wired = target.presented == target.received.wrapping_add(1);
        self.by_presentation += u64::from(chosen && !arrival);
        self.by_arrival += u64::from(chosen && arrival);
        self.wired += u64::from(chosen && wired);
        let accepted = singles.iter().any(|single| single.row[1] > 0);
        self.none_fresh += u64::from(!chosen && accepted);
        let refused = singles
            .last()
            .is_some_and(|single| matches!(single.row, [0, _, 1..=7]));
        self.after_refused += u64::from(chosen && refused);
    }

    fn lines(&self) -> Vec<Line> {
        lines([
            ("targets by presentation", self.by_presentation),
            ("targets by arrival", self.by_arrival),
            ("targets of step 0", self.wired),
            ("no target, some accepted", self.none_fresh),
            ("targets, last one refused", self.after_refused),
        ])
    }
}
