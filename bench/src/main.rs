//! Times the archive beside the peer. There is no pass or fail, but the two
//! have to agree on the inputs before anything is timed.

mod archive;
mod bursts;
mod inputs;
mod messages;
mod peer;
mod peer_encoder;
mod peer_replay;
mod peer_table;
mod recordings;
mod settings;
mod tables;

use inputs::{Input, Random};
use peer::ROW;
use prunepocket_sys::{Refusal, ReportMessage, SettingsMessage};
use std::hint::black_box;
use std::time::{Duration, Instant};

/// A round is about as long as this, and the best of the rounds counts.
const ROUND: Duration = Duration::from_millis(8);
const ROUNDS: usize = 20;

/// Altered copies of each input on which the two have to agree as well, and
/// as many messages for each writer.
const ALTERED: usize = 20_000;

/// Bytes of the longest buffer that is lent to a writer.
const BUFFER: usize = 64;

/// Numbers of an array that holds the rows of every datagram.
const NUMBERS: usize = ROW * 512;

type Count = fn(&[u8], bool) -> Result<u64, Refusal>;
type Read = fn(&[u8], bool, &mut [u64]) -> Result<u64, Refusal>;

/// The same writer of the archive and of the peer.
struct Writers<M> {
    ours: fn(&M, &mut [u8]) -> Result<u64, u64>,
    peers: fn(&M, &mut [u8]) -> Result<u64, u64>,
}

const REPORT_WRITERS: Writers<ReportMessage> = Writers {
    ours: archive::write_report,
    peers: peer_encoder::write_report,
};

const SETTINGS_WRITERS: Writers<SettingsMessage> = Writers {
    ours: archive::write_settings,
    peers: peer_encoder::write_settings,
};

fn main() {
    // Whether reduced size was agreed: hidden, so that no call is built for one
    // value.
    let [not_agreed, agreed] = black_box([false, true]);
    let inputs = inputs::inputs([not_agreed, agreed]);
    for input in &inputs {
        agree_on(input);
    }
    agree_on_messages(REPORT_WRITERS, messages::report);
    agree_on_messages(SETTINGS_WRITERS, messages::settings_packet);
    println!("nanoseconds per datagram or message, best of {ROUNDS} interleaved rounds");
    print_inputs("count", &inputs, time_counts);
    print_inputs("all items", &inputs, time_reads);
    print_growth("farewells", not_agreed, inputs::farewells);
    print_growth("four-byte XR blocks", not_agreed, inputs::short_blocks);
    print_writes_title();
    print_writes("report", REPORT_WRITERS, &messages::reports());
    print_writes("settings", SETTINGS_WRITERS, &messages::settings());
    tables::print();
    bursts::print();
    recordings::print();
}

/// Panics where the archive and the peer differ on an input, or on copies of
/// it with altered bytes and lengths, with either value of the flag.
fn agree_on(input: &Input) {
    let mut random = Random(0x3611);
    for datagram in &input.datagrams {
        agree(datagram, false);
        agree(datagram, true);
    }
    for _ in 0..ALTERED {
        let mut datagram = input.datagrams[random.below(input.datagrams.len())].clone();
        for _ in 0..random.below(4).min(datagram.len()) {
            let at = random.below(datagram.len().min(64));
            datagram[at] ^= 1 << random.below(8);
        }
        datagram.truncate(4 * (1 + random.below(512)));
        agree(&datagram, false);
        agree(&datagram, true);
    }
}

fn agree(datagram: &[u8], reduced_size: bool) {
    let count = archive::count_items(datagram, reduced_size);
    let peers = peer::count_items(datagram, reduced_size);
    assert_eq!(count, peers, "{datagram:?}");
    let exact = ROW * count.unwrap_or(0) as usize;
    for length in [exact, exact + 1, exact.saturating_sub(1)] {
        let mut ours = vec![u64::MAX; length];
        let mut peers = ours.clone();
        let answer = archive::read_items(datagram, reduced_size, &mut ours);
        let peer_answer = peer::read_items(datagram, reduced_size, &mut peers);
        assert_eq!(answer, peer_answer);
        assert_eq!(ours, peers, "{datagram:?}");
    }
}

/// Panics where the archive and the peer differ on messages and buffers.
fn agree_on_messages<M>(writers: Writers<M>, make: fn(&mut Random) -> M) {
    let mut random = Random(0x3611);
    for _ in 0..ALTERED {
        let message = make(&mut random);
        let mut ours = [0xA5; BUFFER];
        let mut peers = ours;
        let length = random.below(BUFFER + 1);
        let answer = (writers.ours)(&message, &mut ours[..length]);
        assert_eq!(answer, (writers.peers)(&message, &mut peers[..length]));
        assert_eq!(ours, peers);
    }
}

fn print_inputs(title: &str, inputs: &[Input], time: fn(&Input) -> (f64, f64)) {
    println!();
    println!(
        "{title:<32}{:>8}{:>8}{:>10}{:>10}{:>12}",
        "bytes", "items", "ours ns", "peer ns", "ours/peer"
    );
    for input in inputs {
        let (ours, peers) = time(input);
        let bytes: usize = input.datagrams.iter().map(Vec::len).sum();
        println!(
            "{:<32}{:>8}{:>8}{ours:>10.1}{peers:>10.1}{:>12.2}",
            input.name,
            bytes / input.datagrams.len(),
            items(input) / input.datagrams.len() as u64,
            ours / peers
        );
    }
}

/// The items of all datagrams; one that is refused has none.
fn items(input: &Input) -> u64 {
    let items = |datagram: &Vec<u8>| archive::count_items(datagram, input.reduced_size);
    let datagrams = input.datagrams.iter();
    datagrams.map(|datagram| items(datagram).unwrap_or(0)).sum()
}

/// Shows that reading all items grows in proportion to the length.
fn print_growth(name: &'static str, reduced_size: bool, make: fn(usize) -> Vec<u8>) {
    println!();
    println!(
        "{:<32}{:>8}{:>8}{:>10}{:>10}{:>10}{:>10}",
        format!("all items, {name}"),
        "bytes",
        "items",
        "ours ns",
        "per byte",
        "peer ns",
        "per byte"
    );
    for length in [256, 512, 1024, 2048] {
        let input = inputs::one(name, reduced_size, make(length));
        let (ours, peers) = time_reads(&input);
        let bytes = length as f64;
        println!(
            "{:<32}{length:>8}{:>8}{ours:>10.1}{:>10.3}{peers:>10.1}{:>10.3}",
            "",
            items(&input),
            ours / bytes,
            peers / bytes
        );
    }
}

fn print_writes_title() {
    println!();
    println!(
        "{:<32}{:>8}{:>10}{:>10}{:>12}",
        "write", "bytes", "ours ns", "peer ns", "ours/peer"
    );
}

fn print_writes<M>(name: &str, writers: Writers<M>, messages: &[M]) {
    let bytes = (writers.ours)(&messages[0], &mut [0; BUFFER]).unwrap_or(0);
    let (ours, peers) = time_writes(writers, messages);
    println!(
        "{name:<32}{bytes:>8}{ours:>10.1}{peers:>10.1}{:>12.2}",
        ours / peers
    );
}

fn time_counts(input: &Input) -> (f64, f64) {
    let pass = |count: Count| {
        for datagram in &input.datagrams {
            use_up(count(black_box(datagram), input.reduced_size));
        }
    };
    let ours = || pass(archive::count_items);
    let peers = || pass(peer::count_items);
    interleaved(input.datagrams.len(), ours, peers)
}

fn time_reads(input: &Input) -> (f64, f64) {
    let mut rows = vec![0; NUMBERS];
    let mut other_rows = rows.clone();
    let pass = |read: Read, rows: &mut [u64]| {
        for datagram in &input.datagrams {
            let rows = black_box(&mut *rows);
            use_up(read(black_box(datagram), input.reduced_size, rows));
        }
    };
    let ours = || pass(archive::read_items, &mut rows);
    let peers = || pass(peer::read_items, &mut other_rows);
    interleaved(input.datagrams.len(), ours, peers)
}

fn time_writes<M>(writers: Writers<M>, messages: &[M]) -> (f64, f64) {
    let mut buffer = [0; BUFFER];
    let mut other_buffer = buffer;
    // Both are hidden once a pass: to hide them anew for each message would
    // cost more than the message.
    let pass = |write: fn(&M, &mut [u8]) -> Result<u64, u64>, buffer: &mut [u8]| {
        let buffer = black_box(buffer);
        for message in black_box(messages) {
            let (Ok(number) | Err(number)) = write(message, buffer);
            black_box(number);
        }
    };
    let ours = || pass(writers.ours, &mut buffer);
    let peers = || pass(writers.peers, &mut other_buffer);
    interleaved(messages.len(), ours, peers)
}

/// Looks at every number of an answer. To hand the whole answer to black_box
/// would copy it, and that copy costs more than a short datagram.
fn use_up(answer: Result<u64, Refusal>) {
    black_box(match answer {
        Ok(count) => count,
        Err(refusal) => refusal.number ^ refusal.place,
    });
}

/// Nanoseconds per datagram of both sides, each the best of its rounds.
fn interleaved(datagrams: usize, mut ours: impl FnMut(), mut peers: impl FnMut()) -> (f64, f64) {
    // The first rounds warm up and tell how many passes fill a round.
    let passes = passes_in_a_round(&mut ours).max(passes_in_a_round(&mut peers));
    let mut best = (f64::MAX, f64::MAX);
    for _ in 0..ROUNDS {
        best.0 = round(passes, &mut ours).min(best.0);
        best.1 = round(passes, &mut peers).min(best.1);
    }
    let datagrams = datagrams as f64;
    (best.0 / datagrams, best.1 / datagrams)
}

fn passes_in_a_round(pass: &mut impl FnMut()) -> u32 {
    let start = Instant::now();
    let mut passes = 0;
    while start.elapsed() < ROUND {
        pass();
        passes += 1;
    }
    passes
}

/// Nanoseconds per pass.
fn round(passes: u32, pass: &mut impl FnMut()) -> f64 {
    let start = Instant::now();
    for _ in 0..passes {
        pass();
    }
    start.elapsed().as_nanos() as f64 / f64::from(passes)
}
