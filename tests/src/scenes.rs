//! Runs the scenes of the receiving bench's text on a side, and holds every
//! answer against the text's own. README.md has the form of the text.

use crate::burst_steps::{check_kept, BurstSteps};
use crate::cases::parse_bytes;
use crate::compare::{same, Verdict, BEFORE};
use crate::encoder::Message;
use crate::items::{settings_of_row, ROW};
use crate::members::{Call, Choice, Opening, Origin, Reading, Record, ReportFields, Target};
use crate::places::PLACES;
use crate::settings_check::{Query, Suits};
use crate::sides::Side;
use crate::target::AtReading;
use prunepocket_sys::{RecordingAnswered, Refusal, Settings, SettingsMessage};
use prunepocket_sys::{ENTRY_LIMIT, ENTRY_ROW};

const OPENING: Opening = Opening {
    group: 42,
    media: 7,
    rate: 90_000,
};

const READING: Reading = Reading {
    ntp: 1000 << 32,
    rtp: 9_000_000,
};

const PAYLOAD_TYPE: u8 = 33;

/// The sender of the settings packets that are checked, but for those of a datagram.
const SENDER: u32 = 1;

/// What `fill` sends: the words of P1's report behind source and origin.
const P1: [&str; 3] = ["999", "8910000", "0x03E78000"];

/// How many steps were run, and how many answers were compared.
#[derive(Clone, Copy, Debug, PartialEq, Eq)]
pub struct Ran {
    pub steps: usize,
    pub answers: usize,
}

/// What was run, or the first line that was not understood or got another answer.
pub fn run<S: Side>(text: &str) -> Result<Ran, String> {
    let mut bench = Bench::<S>::new()?;
    let mut steps = 0;
    for (index, line) in text.lines().enumerate() {
        let verdict = match line.strip_prefix("  ") {
            Some(step) => bench.run(step),
            None if line.starts_with([' ', '\t']) => Err(String::from("not a step")),
            None => continue,
        };
        verdict.map_err(|wrong| format!("line {}: {line}: {wrong}", index + 1))?;
        steps += 1;
    }
    match bench.burst {
        None => Ok(Ran {
            steps,
            answers: bench.answers,
        }),
        Some(_) => Err(String::from("the last burst lacks reports")),
    }
}

/// A side, and what steps leave for the steps behind them.
struct Bench<S> {
    side: S,
    /// The side before the last call that could change it.
    before: S,
    opening: Opening,
    reading: Reading,
    /// The group and media source of the reports.
    stream: (u32, u32),
    datagram: Vec<u8>,
    /// Whether reduced size was agreed with those who send the datagrams.
    reduced_size: bool,
    recording: Vec<u8>,
    last_report: Option<Record>,
    target: Option<Target>,
    /// A burst that lacks reports.
    burst: Option<BurstSteps>,
    /// How many answers were the text's.
    answers: usize,
}

impl<S: Side> Bench<S> {
    fn new() -> Result<Self, String> {
        let side = S::open(&OPENING).map_err(|number| format!("opening: {number}"))?;
        Ok(Bench {
            before: side.clone(),
            side,
            opening: OPENING,
            reading: READING,
            stream: (OPENING.group, OPENING.media),
            datagram: Vec::new(),
            reduced_size: false,
            recording: Vec::new(),
            last_report: None,
            target: None,
            burst: None,
            answers: 0,
        })
    }

    fn run(&mut self, step: &str) -> Verdict {
        let (asked, due) = words(step);
        if let Some(burst) = self.burst.take() {
            return self.gather(burst, &asked, &due);
        }
        if let (["burst", reports, length], [due]) = (&asked[..], &due[..]) {
            return self.start_burst(number(reports)?, number(length)?, number(due)?);
        }
        self.run_alone(step)?;
        self.answers += usize::from(!is_setting(asked[0]));
        Ok(())
    }

    /// A step that is not of a burst.
    fn run_alone(&mut self, step: &str) -> Verdict {
        // A TEXT may have spaces, so it is not taken apart into words.
        if let Some(step) = step.strip_prefix("line ") {
            return read_line::<S>(step);
        }
        if let Some(step) = step.strip_prefix("write line ") {
            return write_line::<S>(step);
        }
        let (asked, due) = words(step);
        match (&asked[..], &due[..]) {
            (["take", origin], due) => {
                let origin = parse_origin(origin)?;
                let answer = self.take(&self.datagram.clone(), &origin);
                is(answer, numbers(due)?)
            }
            (["check", asked @ ..], due) => is(self.check(asked)?, verdict(due)?),
            (asked, []) if is_setting(asked[0]) => self.set(asked),
            (asked, [due]) if is_call(asked[0]) => is(self.call(asked)?, number(due)?),
            (asked, due) => self.look(asked, due),
        }
    }

    /// A burst that is to be refused has no steps, and reports of its own: none of
    /// them is tried.
    fn start_burst(&mut self, reports: usize, length: usize, due: u64) -> Verdict {
        if due == 0 {
            return self.take_if_complete(BurstSteps::new(reports, length));
        }
        let reports = self.plain_records(1, reports as u32)?;
        let (number, list) = self.make_burst(&reports, length);
        is(number, due)?;
        check_kept(&list)?;
        self.answers += 1;
        Ok(())
    }

    /// A step that gives the burst reports, or the stream of the reports behind it.
    fn gather(&mut self, mut burst: BurstSteps, asked: &[&str], due: &[&str]) -> Verdict {
        match (asked, due) {
            (["stream", ..], []) => self.set(asked)?,
            (["report", fields @ ..], [due]) => burst.add(&[self.record(fields)?], number(due)?),
            (["fill", first, last], [due]) => {
                let reports = self.plain_records(number(first)?, number(last)?)?;
                self.last_report = reports.last().copied().or(self.last_report);
                burst.add(&reports, number(due)?);
            }
            _ => return Err(String::from("the burst before it lacks reports")),
        }
        self.take_if_complete(burst)
    }

    fn take_if_complete(&mut self, burst: BurstSteps) -> Verdict {
        if !burst.is_complete()? {
            self.burst = Some(burst);
            return Ok(());
        }
        let (number, list) = self.make_burst(&burst.reports, burst.length);
        is(number, 0)?;
        burst.check(&list)?;
        self.answers += burst.answers();
        Ok(())
    }

    /// The burst's number, and its list with one number more, which is not lent.
    fn make_burst(&mut self, reports: &[Record], length: usize) -> (u64, Vec<u64>) {
        self.before = self.side.clone();
        let mut list = vec![BEFORE; length + 1];
        let lent = &mut list[..length];
        let number = self.side.burst(reports, &self.reading, lent);
        (number, list)
    }

    /// What the steps behind it are told.
    fn set(&mut self, asked: &[&str]) -> Verdict {
        match asked {
            ["table"] => {
                self.reading = READING;
                self.reduced_size = false;
                return is(self.open(OPENING), 0);
            }
            ["reading", ntp, rtp] => {
                let (ntp, rtp) = (time(ntp)?, number(rtp)?);
                self.reading = Reading { ntp, rtp };
            }
            ["reduced", "size", "agreed"] => self.reduced_size = true,
            ["reduced", "size", "not", "agreed"] => self.reduced_size = false,
            ["stream", group, media] => self.stream = (number(group)?, number(media)?),
            ["datagram", words @ ..] => self.datagram = bytes(words)?,
            ["recording", words @ ..] => self.recording = bytes(words)?,
            ["append", words @ ..] => self.recording.extend(bytes(words)?),
            ["cut", count] => self.cut(number(count)?)?,
            _ => return Err(String::from("not a step")),
        }
        Ok(())
    }

    /// So many bytes at the recording's end are left out.
    fn cut(&mut self, count: usize) -> Verdict {
        let left = self.recording.len().checked_sub(count);
        self.recording.truncate(left.ok_or("not so many bytes")?);
        Ok(())
    }

    /// The number of a call.
    fn call(&mut self, asked: &[&str]) -> Result<u64, String> {
        match asked {
            ["open", group, media, rate] => Ok(self.open(Opening {
                group: number(group)?,
                media: number(media)?,
                rate: number(rate)?,
            })),
            ["report", fields @ ..] => {
                let record = self.record(fields)?;
                Ok(self.make(&Call::Report(record, self.reading)))
            }
            ["farewell", source, origin] => {
                let call = Call::Farewell(number(source)?, parse_origin(origin)?);
                Ok(self.make(&call))
            }
            ["sweep"] => Ok(self.make(&Call::Sweep(self.reading))),
            ["send", "report", fields @ ..] => {
                let record = self.record(fields)?;
                self.send_report(&record)
            }
            ["send", "farewell", source, origin] => {
                let source: u32 = number(source)?;
                let bye = [0x81CB_0001, source].map(u32::to_be_bytes).concat();
                self.send(source, &bye, &parse_origin(origin)?)
            }
            ["fill", first, last] => self.fill(number(first)?, number(last)?),
            _ => Err(String::from("not a step")),
        }
    }

    /// Whether a settings packet suits the members, which are left as they were.
    fn check(&mut self, asked: &[&str]) -> Result<Suits, String> {
        let (settings, slack) = match asked {
            ["own", slack] => (self.own_settings()?, slack),
            ["item", index, slack] => (read_settings(self.item_at(number(index)?))?, slack),
            [fields @ .., slack] => (settings(fields)?, slack),
            _ => return Err(String::from("not a step")),
        };
        let query = Query {
            settings,
            reading: self.reading,
            slack: number(slack)?,
        };
        self.before = self.side.clone();
        let suits = self.side.check_settings(&query);
        self.unchanged(None)?;
        Ok(suits)
    }

    /// The side's own choice, or zeros where there is none, written and read back
    /// behind an RR.
    fn own_settings(&self) -> Result<Settings, String> {
        let target = self.side.choose(&self.reading).unwrap_or_default();
        let message = S::write(&settings_message(SENDER, &target));
        let message = message.map_err(|number| format!("not written: {number}"))?;
        read_settings(S::item_at(&behind_rr(SENDER, &message), false, 0))
    }

    /// The answer to a question, which changes nothing but the target that steps
    /// behind it ask about.
    fn look(&mut self, asked: &[&str], due: &[&str]) -> Verdict {
        match (asked, due) {
            (["items"], due) => {
                let items = S::count_items(&self.datagram, self.reduced_size);
                is(items, count(due)?)
            }
            (["item", index], due) => {
                let row = self.item_at(number(index)?);
                is(row.map(|row| (row[0], row[2])), item(due)?)
            }
            (["choose"], due) => is(self.choose()?, self.choice(due)?),
            (["write", "report"], words) => {
                let report = self.last_report.ok_or("there is no report")?;
                is(S::write(&Message::from(&report)), Ok(bytes(words)?))
            }
            (["members" | "place" | "tally" | "unchanged", ..], due) => {
                self.look_at_members(asked, due)
            }
            (["replay", asked @ ..], due) => self.look_at_replay(asked, due),
            _ => self.look_at_target(asked, due),
        }
    }

    fn look_at_members(&self, asked: &[&str], due: &[&str]) -> Verdict {
        match (asked, due) {
            (["members"], [due]) => is(self.side.count_members(), number(due)?),
            (["place", index], due) => {
                let member = self.side.member_at(number(index)?);
                let held = member.map(|member| (member.record.source, member.record.origin));
                is(held, holder(due)?)
            }
            (["tally", index], [due]) => is(tally_at(&self.side, number(index)?), tally(due)?),
            (["unchanged"], []) => self.unchanged(None),
            (["unchanged", "but", "tally", index], [due]) => {
                let index = place(index)?;
                self.unchanged(Some(index))?;
                is(tally_at(&self.side, index).unwrap_or(0), number(due)?)
            }
            _ => Err(String::from("not a step")),
        }
    }

    fn look_at_target(&self, asked: &[&str], due: &[&str]) -> Verdict {
        match (asked, due) {
            (["lateness"], [due]) => {
                let lateness = self.at_reading(&[]).lateness(&self.target()?);
                is(lateness, number::<i128>(due)? << 32)
            }
            (["age"], [due]) => {
                let age = self.reading.ntp.wrapping_sub(self.target()?.received);
                is(age, time(due)?)
            }
            (["delay"], [due]) => {
                let target = self.target()?;
                is(target.presented.wrapping_sub(target.received), time(due)?)
            }
            (["write", "settings", sender], words) => {
                let settings = settings_message(number(sender)?, &self.target()?);
                is(S::write(&settings), Ok(bytes(words)?))
            }
            _ => Err(String::from("not a step")),
        }
    }

    /// What came of the recording, an entry of it, or its target.
    fn look_at_replay(&self, asked: &[&str], due: &[&str]) -> Verdict {
        let mut rows = [0; ENTRY_ROW * ENTRY_LIMIT];
        let replayed = S::replay(&self.recording, &mut rows);
        match (asked, due) {
            ([], due) => is(entries(&replayed), entry_count(due)?),
            (["entry", index], due) => {
                let row = rows.chunks(ENTRY_ROW).nth(number(index)?);
                is(row.ok_or("not an entry")?.to_vec(), row_of(due)?)
            }
            (["target"], due) => is(replayed_target(&replayed), presented_target(due)?),
            _ => Err(String::from("not a step")),
        }
    }

    fn item_at(&self, index: u64) -> Result<[u64; ROW], Refusal> {
        S::item_at(&self.datagram, self.reduced_size, index)
    }

    /// A refused opening leaves the table before.
    fn open(&mut self, opening: Opening) -> u64 {
        match S::open(&opening) {
            Ok(side) => {
                self.before = side.clone();
                self.side = side;
                self.opening = opening;
                self.stream = (opening.group, opening.media);
                0
            }
            Err(number) => number,
        }
    }

    fn make(&mut self, call: &Call) -> u64 {
        self.before = self.side.clone();
        self.side.call(call)
    }

    fn take(&mut self, datagram: &[u8], origin: &Origin) -> Result<Vec<u64>, Refusal> {
        self.before = self.side.clone();
        let reading = &self.reading;
        self.side.take(datagram, self.reduced_size, origin, reading)
    }

    /// A message behind an RR of its sender is a datagram with one call.
    fn send(&mut self, sender: u32, message: &[u8], origin: &Origin) -> Result<u64, String> {
        match self.take(&behind_rr(sender, message), origin).as_deref() {
            Ok([number]) => Ok(*number),
            answer => Err(format!("not one call: {answer:?}")),
        }
    }

    fn send_report(&mut self, record: &Record) -> Result<u64, String> {
        let message = S::write(&Message::from(record));
        let message = message.map_err(|number| format!("not written: {number}"))?;
        self.send(record.source, &message, &record.origin)
    }

    /// The last number that is not 0, or 0.
    fn fill(&mut self, first: u32, last: u32) -> Result<u64, String> {
        let before = self.side.clone();
        let mut answer = 0;
        for record in self.plain_records(first, last)? {
            self.last_report = Some(record);
            let number = self.send_report(&record)?;
            answer = if number == 0 { answer } else { number };
        }
        self.before = before;
        Ok(answer)
    }

    /// P1's fields from each of these sources, and a port for each.
    fn plain_records(&self, first: u32, last: u32) -> Result<Vec<Record>, String> {
        let [received, rtp, presented] = P1;
        let plain = |source: u32| {
            let origin = format!("192.0.2.1:{}", 5000 + source);
            self.parse_record(&[&source.to_string(), &origin, received, rtp, presented])
        };
        (first..=last).map(plain).collect()
    }

    /// The choice is as defined for the members that the side shows.
    fn choose(&mut self) -> Result<Choice, String> {
        let choice = self.side.choose(&self.reading);
        self.at_reading(&records(&self.side)).check(&choice, &[0])?;
        self.target = choice.ok();
        Ok(choice)
    }

    fn target(&self) -> Result<Target, String> {
        self.target.ok_or(String::from("there is no target"))
    }

    fn at_reading<'a>(&self, members: &'a [Record]) -> AtReading<'a> {
        AtReading {
            rate: self.opening.rate,
            reading: self.reading,
            members,
        }
    }

    /// Members and target are as before the last call, but for the tally at one
    /// place.
    fn unchanged(&self, but: Option<usize>) -> Verdict {
        for place in 0..PLACES {
            let [now, mut then] = [&self.side, &self.before].map(|side| side.member_at(place));
            if let (Some(then), true) = (&mut then, but == Some(place)) {
                then.tally = tally_at(&self.side, place).unwrap_or(0);
            }
            same(format_args!("place {place}"), &now, &then)?;
        }
        let [now, then] = [&self.side, &self.before].map(|side| side.choose(&self.reading));
        same(format_args!("the target"), &now, &then)
    }

    /// The report of a step, which is the last one from then on.
    fn record(&mut self, fields: &[&str]) -> Result<Record, String> {
        let record = self.parse_record(fields)?;
        self.last_report = Some(record);
        Ok(record)
    }

    fn parse_record(&self, fields: &[&str]) -> Result<Record, String> {
        let [source, origin, received, rtp, presented] = fields else {
            return Err(String::from("not the fields of a report"));
        };
        let (p, presented) = match *presented {
            "-" => (0, 0),
            presented => (1, number(presented)?),
        };
        Ok(Record {
            source: number(source)?,
            origin: parse_origin(origin)?,
            report: ReportFields {
                received: time(received)?,
                group: self.stream.0,
                media: self.stream.1,
                rtp: number(rtp)?,
                presented,
                payload_type: PAYLOAD_TYPE,
                p,
            },
        })
    }

    fn choice(&self, words: &[&str]) -> Result<Choice, String> {
        match words {
            ["refused", refusal] => Ok(Err(number(refusal)?)),
            [source, received, rtp, presented, counted] => Ok(Ok(Target {
                source: number(source)?,
                group: self.opening.group,
                media: self.opening.media,
                received: time(received)?,
                rtp: number(rtp)?,
                presented: presented_time(presented)?,
                counted: number(counted)?,
            })),
            _ => Err(String::from("not a choice")),
        }
    }
}

/// The words of a step, and those of its expected answer.
fn words(step: &str) -> (Vec<&str>, Vec<&str>) {
    let (asked, due) = step.split_once(" = ").unwrap_or((step, ""));
    (asked.split(' ').collect(), due.split_whitespace().collect())
}

fn read_line<S: Side>(step: &str) -> Verdict {
    let (line, due) = split_text(step)?;
    let due = due.strip_prefix(" = ").ok_or("no answer")?;
    is(S::read_line(&line), group(due)?)
}

fn write_line<S: Side>(step: &str) -> Verdict {
    let (group, due) = step.split_once(" = ").ok_or("no answer")?;
    is(S::write_line(number(group)?), line(due)?)
}

fn is_setting(word: &str) -> bool {
    let of_table = ["table", "reading", "reduced", "stream", "datagram"];
    let of_recording = ["recording", "append", "cut"];
    of_table.contains(&word) || of_recording.contains(&word)
}

fn is_call(word: &str) -> bool {
    ["open", "report", "farewell", "sweep", "send", "fill"].contains(&word)
}

/// Whether an answer is the text's.
fn is<T: PartialEq + std::fmt::Debug>(answer: T, due: T) -> Verdict {
    match answer == due {
        true => Ok(()),
        false => Err(format!("got {answer:?}, the text has {due:?}")),
    }
}

fn records(side: &impl Side) -> Vec<Record> {
    let members = side.places().into_iter().flatten();
    members.map(|member| member.record).collect()
}

/// The tally of the member at a place, if there is one.
fn tally_at(side: &impl Side, place: usize) -> Option<u32> {
    side.member_at(place).map(|member| member.tally)
}

/// A message behind an RR of its sender.
fn behind_rr(sender: u32, message: &[u8]) -> Vec<u8> {
    let rr = [0x80C9_0001, sender].map(u32::to_be_bytes).concat();
    [&rr, message].concat()
}

fn settings_message(sender: u32, target: &Target) -> Message {
    Message::Settings(SettingsMessage {
        sender,
        group: target.group,
        media: target.media,
        received: target.received,
        rtp: target.rtp,
        presented: target.presented,
    })
}

/// Decimal, or hex behind `0x`.
fn number<T: TryFrom<u64>>(word: &str) -> Result<T, String> {
    let number = match word.strip_prefix("0x") {
        Some(digits) => u64::from_str_radix(digits, 16),
        None => word.parse(),
    };
    let number = number.ok().and_then(|number| T::try_from(number).ok());
    number.ok_or(format!("not a number: {word}"))
}

/// The number of one of the 64 places.
fn place(word: &str) -> Result<usize, String> {
    let place = number(word)?;
    match place < PLACES {
        true => Ok(place),
        false => Err(format!("not a place: {word}")),
    }
}

/// Seconds, and units of 2^-32 s behind a plus.
fn time(word: &str) -> Result<u64, String> {
    let (seconds, units) = word.split_once('+').unwrap_or((word, "0"));
    let (seconds, units): (u32, u32) = (number(seconds)?, number(units)?);
    Ok(u64::from(seconds) << 32 | u64::from(units))
}

/// A target's presented time: a time, or 0 where it is chosen by arrival.
fn presented_time(word: &str) -> Result<u64, String> {
    match word {
        "-" => Ok(0),
        word => time(word),
    }
}

/// Words of eight hex digits.
fn bytes(words: &[&str]) -> Result<Vec<u8>, String> {
    let words = words.iter().map(|word| match word.len() {
        8 => parse_bytes(word).ok_or(format!("not in hex: {word}")),
        _ => Err(format!("not a word of eight digits: {word}")),
    });
    Ok(words.collect::<Result<Vec<_>, _>>()?.concat())
}

/// The bytes of a TEXT, and what stands behind it.
fn split_text(words: &str) -> Result<(Vec<u8>, &str), String> {
    let text = words
        .strip_prefix('"')
        .and_then(|rest| rest.split_once('"'));
    let (text, behind) = text.ok_or(format!("not a text: {words}"))?;
    let text = text.replace("\\r", "\r").replace("\\n", "\n");
    Ok((text.into_bytes(), behind))
}

/// An address, a colon and a port.
fn parse_origin(word: &str) -> Result<Origin, String> {
    let (address, port) = word.split_once(':').ok_or(format!("no port: {word}"))?;
    let bytes = match address.contains('.') {
        true => {
            let bytes = address.split('.').map(number);
            let bytes = bytes.collect::<Result<Vec<u8>, _>>()?;
            [&[0; 10][..], &[255, 255], &bytes].concat()
        }
        false => parse_bytes(address).unwrap_or_default(),
    };
    Ok(Origin {
        address: bytes
            .try_into()
            .map_err(|_| format!("not an address: {address}"))?,
        port: number(port)?,
    })
}

fn refusal(words: &[&str]) -> Result<Refusal, String> {
    match words {
        ["refused", refusal, place] => Ok(Refusal::new(number(refusal)?, number(place)?)),
        _ => Err(format!("not an answer: {words:?}")),
    }
}

/// The number of a refusal at place 0, where there is one.
fn refusal_of_line(words: &str) -> Result<Option<Refusal>, String> {
    match words.strip_prefix("refused ") {
        Some(refusal) => Ok(Some(Refusal::new(number(refusal)?, 0))),
        None => Ok(None),
    }
}

/// The group number of a line.
fn group(words: &str) -> Result<Result<u32, Refusal>, String> {
    match refusal_of_line(words)? {
        Some(refusal) => Ok(Err(refusal)),
        None => Ok(Ok(number(words)?)),
    }
}

/// The line of a group number.
fn line(words: &str) -> Result<Result<Vec<u8>, Refusal>, String> {
    match (refusal_of_line(words)?, split_text(words)) {
        (Some(refusal), _) => Ok(Err(refusal)),
        (None, Ok((line, ""))) => Ok(Ok(line)),
        (None, _) => Err(format!("not a line: {words}")),
    }
}

fn count(words: &[&str]) -> Result<Result<u64, Refusal>, String> {
    match words {
        [count] => Ok(Ok(number(count)?)),
        words => Ok(Err(refusal(words)?)),
    }
}

/// The numbers of calls, of which there may be none.
fn numbers(words: &[&str]) -> Result<Result<Vec<u64>, Refusal>, String> {
    match words {
        ["none"] => Ok(Ok(Vec::new())),
        ["refused", ..] => Ok(Err(refusal(words)?)),
        [] => Err(String::from("no answer")),
        words => {
            let numbers = words.iter().map(|word| number(word));
            Ok(Ok(numbers.collect::<Result<_, _>>()?))
        }
    }
}

/// The kind and the source of an item.
fn item(words: &[&str]) -> Result<Result<(u64, u64), Refusal>, String> {
    match words {
        ["report", source] => Ok(Ok((1, number(source)?))),
        ["settings", source] => Ok(Ok((2, number(source)?))),
        ["farewell", source] => Ok(Ok((3, number(source)?))),
        words => Ok(Err(refusal(words)?)),
    }
}

/// How many entries a recording has, or the number of its refusal.
fn entries(replayed: &RecordingAnswered) -> Result<u64, u64> {
    match replayed.number {
        0 => Ok(replayed.entries),
        number => Err(number),
    }
}

fn entry_count(words: &[&str]) -> Result<Result<u64, u64>, String> {
    match words {
        ["refused", refusal] => Ok(Err(number(refusal)?)),
        [count] => Ok(Ok(number(count)?)),
        _ => Err(format!("not an answer: {words:?}")),
    }
}

/// The row of an entry.
fn row_of(words: &[&str]) -> Result<Vec<u64>, String> {
    words.iter().map(|word| number(word)).collect()
}

/// Source and presented time of a recording's target, if it has one.
fn replayed_target(replayed: &RecordingAnswered) -> Option<(u32, u64)> {
    let target = replayed.target;
    (replayed.choice == 0).then_some((target.source, target.presented))
}

fn presented_target(words: &[&str]) -> Result<Option<(u32, u64)>, String> {
    match words {
        ["none"] => Ok(None),
        [source, presented] => Ok(Some((number(source)?, presented_time(presented)?))),
        _ => Err(format!("not an answer: {words:?}")),
    }
}

/// The settings packet that an item is.
fn read_settings(item: Result<[u64; ROW], Refusal>) -> Result<Settings, String> {
    match item {
        Ok(row @ [2, ..]) => Ok(settings_of_row(&row)),
        item => Err(format!("no settings: {item:?}")),
    }
}

/// Group, media source and the three times of a settings packet.
fn settings(fields: &[&str]) -> Result<Settings, String> {
    let [group, media, received, rtp, presented] = fields else {
        return Err(String::from("not the fields of settings"));
    };
    Ok(Settings {
        sender: SENDER,
        media: number(media)?,
        group: number(group)?,
        received: time(received)?,
        rtp: number(rtp)?,
        presented: time(presented)?,
    })
}

/// Whether a settings packet suits, or the number of the refusal.
fn verdict(words: &[&str]) -> Result<Suits, String> {
    match words {
        ["yes"] => Ok(Ok(true)),
        ["no"] => Ok(Ok(false)),
        ["refused", refusal] => Ok(Err(number(refusal)?)),
        _ => Err(format!("not a verdict: {words:?}")),
    }
}

/// The tally of a member, or that there is no member.
fn tally(word: &str) -> Result<Option<u32>, String> {
    match word {
        "none" => Ok(None),
        word => Ok(Some(number(word)?)),
    }
}

/// Who holds a place, if anybody does.
fn holder(words: &[&str]) -> Result<Option<(u32, Origin)>, String> {
    match words {
        ["free"] => Ok(None),
        [source, origin] => Ok(Some((number(source)?, parse_origin(origin)?))),
        _ => Err(String::from("not who holds a place")),
    }
}

#[cfg(test)]
mod tests {
    use super::{run, Ran};
    use crate::intake::Intake;

    const REPORT: &str = "  report 10 192.0.2.1:5010 999 8910000 0x03E78000";

    fn steps(text: &str) -> Result<usize, String> {
        run::<Intake>(text).map(|ran| ran.steps)
    }

    fn fails(text: &str) -> bool {
        steps(text).is_err()
    }

    #[test]
    fn steps_and_answers_are_counted() {
        let text = format!("A scene.\n  table\n{REPORT} = 0\n\n  members = 1\n");
        let (steps, answers) = (3, 2);
        assert_eq!(run::<Intake>(&text), Ok(Ran { steps, answers }));
    }

    #[test]
    fn another_answer_fails() {
        assert!(fails(&format!("{REPORT} = 14\n")));
        assert!(fails(&format!("{REPORT} = 0\n  unchanged\n")));
        assert!(fails("  members = 1\n"));
        assert!(fails("  place 0 = 10 192.0.2.1:5010\n"));
        assert!(fails("  items = 0\n"));
        assert!(fails("  choose = refused 19\n"));
        let text = r#""a=rtcp-idms:sync-group=42\r\n""#;
        for answer in ["43", "refused 21", "refused 22"] {
            assert!(fails(&format!("  line {text} = {answer}\n")), "{answer}");
        }
        assert!(fails("  line \"\" = 0\n"));
        assert!(fails(&format!("  write line 43 = {text}\n")));
        assert!(fails(&format!("  write line 4294967295 = {text}\n")));
        assert!(fails("  write line 42 = refused 22\n"));
    }

    const TWIN: &str = "  report 10 192.0.2.1:6000 999 8910000 0x03E78000";

    #[test]
    fn unchanged_looks_at_the_tallies() {
        let farewell = "  farewell 10 192.0.2.1:6000";
        let start = format!("{REPORT} = 0\n{TWIN} = 14\n{farewell} = 14\n");
        for step in [
            "tally 0 = 2",
            "tally 1 = none",
            "tally 64 = none",
            "unchanged but tally 0 = 2",
        ] {
            assert_eq!(steps(&format!("{start}  {step}\n")), Ok(4), "{step}");
        }
        for step in [
            "unchanged",
            "unchanged but tally 0 = 1",
            "unchanged but tally 1 = 0",
            "unchanged but tally 1 = 2",
            "tally 0 = 1",
            "tally 0 = none",
            "tally 1 = 0",
            "tally 1 = 2",
            "tally 64 = 0",
        ] {
            assert!(fails(&format!("{start}  {step}\n")), "{step}");
        }
        let own = format!("{start}{REPORT} = 0\n");
        for step in ["tally 0 = 2", "unchanged", "unchanged but tally 0 = 2"] {
            assert_eq!(steps(&format!("{own}  {step}\n")), Ok(5), "{step}");
        }
        let left = format!("{start}  farewell 10 192.0.2.1:5010 = 0\n");
        assert_eq!(steps(&format!("{left}  tally 0 = none\n")), Ok(5));
        for step in [
            "tally 0 = 0",
            "unchanged but tally 0 = 0",
            "unchanged but tally 0 = 2",
        ] {
            assert!(fails(&format!("{left}  {step}\n")), "{step}");
        }
    }

    #[test]
    fn the_tally_of_any_place_can_be_left_out() {
        for place in [0, 63] {
            let step = format!("  unchanged but tally {place} = 0\n");
            assert_eq!(steps(&step), Ok(1));
        }
    }

    #[test]
    fn a_burst_has_the_reports_of_the_steps_behind_it() {
        let start = format!("  burst 5 6 = 0\nProse.\n{REPORT} = 0\n{TWIN} = 14\n");
        let other = format!("  stream 43 7\n{REPORT} = 13\n  stream 42 7\n");
        let text = format!("{start}{other}  fill 1 2 = 0\n");
        let behind = "  members = 3\n  tally 0 = 1\n  place 2 = 2 192.0.2.1:5002\n";
        let ran = Ran {
            steps: 10,
            answers: 8,
        };
        assert_eq!(run::<Intake>(&format!("{text}{behind}")), Ok(ran));
        assert!(fails(&text.replace("= 14", "= 0")));
        assert!(fails(&text.replace("= 13", "= 15")));
        assert!(fails(&text.replace("fill 1 2 = 0", "fill 1 2 = 18")));
        assert!(fails(&format!("{text}  unchanged\n")));
        let again = format!("{text}  burst 2 2 = 0\n  fill 1 2 = 0\n  unchanged\n");
        assert_eq!(steps(&again), Ok(10));
    }

    #[test]
    fn a_fill_in_a_burst_gets_its_last_refusal() {
        let text = "  fill 1 63 = 0\n  burst 4 4 = 0\n";
        assert_eq!(steps(&format!("{text}  fill 63 66 = 18\n")), Ok(3));
        assert!(fails(&format!("{text}  fill 63 66 = 0\n")));
        let text = "  fill 10 10 = 0\n  burst 2 2 = 0\n";
        assert_eq!(steps(&format!("{text}{TWIN} = 14\n{REPORT} = 0\n")), Ok(4));
    }

    #[test]
    fn a_refused_burst_has_no_steps() {
        for (burst, other) in [
            ("burst 65 65 = 23", "burst 65 65 = 24"),
            ("burst 65 64 = 23", "burst 65 64 = 24"),
            ("burst 64 63 = 24", "burst 64 63 = 23"),
            ("burst 1 0 = 24", "burst 1 0 = 14"),
        ] {
            let text = format!("{REPORT} = 0\n  {burst}\n  unchanged\n  members = 1\n");
            assert_eq!(steps(&text), Ok(4), "{burst}");
            assert!(fails(&text.replace(burst, other)), "{other}");
        }
        for burst in ["burst 1 1 = 24", "burst 64 64 = 23", "burst 0 0 = 24"] {
            assert!(fails(&format!("  {burst}\n")), "{burst}");
        }
    }

    #[test]
    fn a_burst_that_lacks_its_reports_fails() {
        let burst = "  burst 2 2 = 0\n";
        assert_eq!(
            steps(&format!("{burst}{REPORT} = 0\n{REPORT} = 0\n")),
            Ok(3)
        );
        assert!(fails(&format!("{burst}{REPORT} = 0\n")));
        for behind in [
            "  members = 1\n",
            "  table\n",
            "  reading 1000 9000000\n",
            "  burst 0 0 = 0\n",
            "  line \"\" = refused 21\n",
            "  unchanged\n",
        ] {
            let text = format!("{burst}{REPORT} = 0\n{behind}");
            assert!(fails(&text), "{behind}");
            assert!(fails(&format!("{text}{REPORT} = 0\n")), "{behind}");
        }
        assert!(fails(&format!("{burst}  fill 1 3 = 0\n")));
        assert!(fails("  burst 2 1 = 0\n  fill 1 2 = 0\n"));
        assert_eq!(steps("  burst 0 0 = 0\n  unchanged\n"), Ok(2));
    }

    #[test]
    fn steps_are_told_whether_reduced_size_was_agreed() {
        let bye = "  datagram 81CB0001 0000000A\n";
        let walked = "  items = 1\n  item 0 = farewell 10\n  take 192.0.2.1:5010 = 19\n";
        let four =
            "  items = refused 4 0\n  item 0 = refused 4 0\n  take 192.0.2.1:5010 = refused 4 0\n";
        let start = format!("{bye}{four}  reduced size agreed\n{walked}");
        for step in ["  reduced size not agreed\n", "  table\n"] {
            assert_eq!(steps(&format!("{start}{step}{four}")), Ok(12));
        }
        for step in ["", "  open 42 7 90000 = 0\n", "  reading 1 0\n"] {
            assert!(fails(&format!("{start}{step}{four}")), "{step}");
        }
    }

    #[test]
    fn texts_stand_for_their_bytes() {
        let text = r#""a=rtcp-idms:sync-group=42\r\n""#;
        let read = format!("  line {text} = 42\n  line {text} = 0x2A\n");
        let written = format!("  write line 0x2A = {text}\n");
        let refused = "  line \"a = \\x\" = refused 21\n";
        assert_eq!(steps(&[&read, &written, refused].concat()), Ok(4));
    }

    /// A head for the papers' table with one entry, which has no bytes.
    const RECORDING: &str = concat!(
        "  recording 00000001 0000002A 00000007 00015F90\n",
        "  append 000003E8 00000000 00895440 00000000 00000000 0000FFFF C0000201 13920000\n",
    );

    #[test]
    fn a_recording_is_replayed() {
        let answers = "  replay = 1\n  replay entry 0 = 0 0 1\n  replay target = none\n";
        assert_eq!(steps(&format!("{RECORDING}{answers}")), Ok(5));
        for (answer, other) in [
            ("replay = 1", "replay = 0"),
            ("replay = 1", "replay = refused 25"),
            ("0 = 0 0 1", "0 = 0 0 0"),
            ("0 = 0 0 1", "0 = 1 0 1"),
            ("0 = 0 0 1", "0 = 0 1 1"),
            ("entry 0", "entry 1"),
            ("target = none", "target = 0 -"),
        ] {
            let text = format!("{RECORDING}{}", answers.replace(answer, other));
            assert!(fails(&text), "{other}");
        }
    }

    #[test]
    fn a_recording_is_put_together_of_words() {
        let cut = format!("{RECORDING}  cut 1\n  replay = refused 25\n");
        assert_eq!(steps(&cut), Ok(4));
        let head = "  recording 00000000 0000002A 00000007 00015F90\n  replay = 0\n";
        assert_eq!(
            steps(&format!("{cut}{head}  replay target = none\n")),
            Ok(7)
        );
        let all = format!("{RECORDING}  cut 48\n  replay = refused 25\n");
        assert_eq!(steps(&all), Ok(4));
        assert!(fails(&format!("{RECORDING}  cut 49\n")));
    }

    #[test]
    fn the_target_of_a_recording_is_compared() {
        let entry = "000003E8 00000000 00895440 00000000 00000000 0000FFFF C0000201 139C0030";
        let report = "80CF0009 00000014 0C110007 42000000 0000002A 00000007 000003E6 00000000";
        let rest = "00869520 03E6C000";
        let head = "  recording 00000001 0000002A 00000007 00015F90\n";
        let bodies = format!("  append {entry} 80C90001 00000014 {report} {rest}\n");
        let answers = "  replay entry 0 = 1 1 0\n  replay target = 20 998+0xC0000000\n";
        let text = format!("{head}{bodies}{answers}");
        assert_eq!(steps(&text), Ok(4));
        for other in ["21 998+0xC0000000", "20 998", "20 -", "none"] {
            let text = text.replace("20 998+0xC0000000", other);
            assert!(fails(&text), "{other}");
        }
    }

    #[test]
    fn settings_are_checked() {
        let p1 = "  check 42 7 999 8910000 999+0x80000000 0";
        let later = "  check 42 7 999 8910000 999+0x80000001 0";
        let item = "80D30008 00000001 00000007 0000002A 000003E7 00000000 0087F4B0 000003E7";
        let items = format!("  datagram 80C90001 00000001 {item} 80000000\n  check item 0 0");
        for (check, answer, others) in [
            (p1, "yes", ["no", "refused 17"]),
            (later, "no", ["yes", "refused 17"]),
            ("  check own 0", "yes", ["no", "refused 17"]),
            ("  check own 1966081", "refused 11", ["yes", "refused 17"]),
            (&items, "yes", ["no", "refused 13"]),
        ] {
            let text = format!("{REPORT} = 0\n{check}");
            let behind = "  unchanged\n  choose = 10 999 8910000 999+0x80000000 1\n";
            assert!(
                steps(&format!("{text} = {answer}\n{behind}")).is_ok(),
                "{check}"
            );
            for other in others {
                assert!(fails(&format!("{text} = {other}\n")), "{check}: {other}");
            }
        }
    }

    #[test]
    fn an_item_that_is_no_settings_is_not_checked() {
        let bye = "  datagram 80C90001 0000000A 81CB0001 0000000A\n";
        for index in [0, 1] {
            let text = format!("{REPORT} = 0\n{bye}  check item {index} 0 = ");
            for answer in ["yes", "no", "refused 9", "refused 17"] {
                assert!(fails(&format!("{text}{answer}\n")), "{index}: {answer}");
            }
        }
    }

    const NOT_UNDERSTOOD: &[&str] = &[
        "  sweeps = 0",
        "  sweep",
        "  members 1",
        "  unchanged = 0",
        "  unchanged but tally 0",
        "  unchanged but tally = 0",
        "  unchanged but 0 = 0",
        "  unchanged but tally 0 = free",
        "  unchanged but tally 64 = 0",
        "  unchanged but tally 4294967296 = 0",
        "  tally 0",
        "  tally = 0",
        "  tally 0 = free",
        "  table = 0",
        "  burst",
        "  burst 0 0",
        "  burst 0 = 0",
        "  burst 0 0 0 = 0",
        "  burst 0 0 = free",
        "  check",
        "  check own = refused 20",
        "  check own 0",
        "  check own 0 = 20",
        "  check own 0 = refused",
        "  check own 0 = refused 20 0",
        "  check own 4294967296 = refused 11",
        "  check item 0 = refused 20",
        "  check 42 7 999 8910000 999+1 = refused 20",
        "  check 42 7 999 8910000 999+1 0",
        "  check 42 7 999 8910000 - 0 = refused 20",
        "  check 42 7 999 8910000 999+1 0 0 = refused 20",
        "  reduced size",
        "  reduced size agreed = 0",
        "  reduced size not",
        "  reduced size not agreed = 0",
        " table",
        "\ttable",
        "  line",
        "  line \"\"",
        "  line \"\" =",
        "  line \"\" = ",
        "  line \"\" = refused",
        "  line \"\" = refused 21 0",
        "  line = refused 21",
        "  line a = refused 21",
        "  line \"a = refused 21",
        "  line \"a\"b = refused 21",
        "  line \"a\" \"b\" = refused 21",
        "  write line = refused 22",
        "  write line 4294967295",
        "  write line 4294967296 = refused 22",
        "  write line 42 = a=rtcp-idms:sync-group=42\\r\\n",
        "  write line 42 = \"a=rtcp-idms:sync-group=42\\r\\n\" ",
        "  recording 0000002",
        "  recording 00000000 = 0",
        "  append 0000002A0",
        "  append 0000002A = 0",
        "  cut",
        "  cut 1",
        "  cut 0 = 0",
        "  replay",
        "  replay = refused",
        "  replay = none",
        "  replay 0 = refused 25",
        "  replay entry = 0 0 0",
        "  replay entry 0",
        "  replay entry 0 = 0 0",
        "  replay entry 0 = 0 0 0 0",
        "  replay entry 256 = 0 0 0",
        "  replay target",
        "  replay target = refused 20",
        "  replay target 0 = none",
    ];

    #[test]
    fn a_line_that_is_not_understood_fails() {
        for line in NOT_UNDERSTOOD {
            assert!(fails(line), "{line}");
        }
    }
}
