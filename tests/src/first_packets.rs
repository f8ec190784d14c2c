//! What the first packets of datagrams were and what came of them, by the value
//! of the flag for reduced size: how often each was met.

use crate::counts::{answer_name, Line};
use crate::items::Refusal;

/// The values of the flag, as columns of a count.
pub const FLAGS: [&str; 2] = ["flag 0", "flag 1"];

/// Types of a first packet, as columns of a count.
const TYPES: [&str; 8] = ["SR", "RR", "SDES", "BYE", "APP", "XR", "211", "other"];

/// What can come of a datagram: 0 that it is accepted, 1 to 7 that it is refused
/// with that number at its first packet, and then these.
const OUTCOMES: usize = 12;
const REFUSED_BEHIND: usize = 8;
const LONE_ACCEPTED: usize = 9;
/// Refused with 3, though the padding would be good on a last packet which is
/// not the first.
const LONE_PADDED: usize = 10;
const FIRST_PADDED: usize = 11;

#[derive(Default)]
pub struct FirstPackets {
    /// By the value of the flag, the type and what came of it.
    times: [[[u64; OUTCOMES]; TYPES.len()]; 2],
}

impl FirstPackets {
    /// A datagram with what it was refused with, if anything. One without a
    /// whole header has no first packet.
    pub fn count(&mut self, datagram: &[u8], reduced_size: bool, refusal: Option<Refusal>) {
        let Some(&[_, packet_type, high, low]) = datagram.first_chunk() else {
            return;
        };
        let end = 4 * (usize::from(u16::from_be_bytes([high, low])) + 1);
        let lone = end == datagram.len();
        let times = &mut self.times[usize::from(reduced_size)][column(packet_type)];
        match refusal {
            None => {
                times[0] += 1;
                times[LONE_ACCEPTED] += u64::from(lone);
            }
            Some(refusal) if refusal.place >= end as u64 => times[REFUSED_BEHIND] += 1,
            Some(refusal) => {
                times[refusal.number as usize] += 1;
                // After check 2, so the packet ends within the datagram.
                if refusal.number == 3 && good_padding(&datagram[..end]) {
                    times[if lone { LONE_PADDED } else { FIRST_PADDED }] += 1;
                }
            }
        }
    }

    /// For each value of the flag, what came of first packets of each type.
    pub fn print(&self) {
        let columns: String = TYPES.iter().map(|name| format!("{name:>10}")).collect();
        for (flag, times) in FLAGS.iter().zip(&self.times) {
            println!("{:<32}{columns}", format!("first packet, {flag}"));
            for outcome in 0..OUTCOMES {
                let columns = times.iter().map(|times| format!("{:>10}", times[outcome]));
                println!("{:<32}{}", name(outcome), columns.collect::<String>());
            }
        }
    }

    /// Everything that can come of a first packet.
    pub fn all_lines(&self) -> Vec<Line> {
        self.lines(|_| true)
    }

    /// That a first packet is walked or refused with 4, by flag and type.
    pub fn type_lines(&self) -> Vec<Line> {
        self.lines(|outcome| outcome == 0 || outcome == 4)
    }

    fn lines(&self, asked: fn(usize) -> bool) -> Vec<Line> {
        let mut lines = Vec::new();
        for (flag, of_flag) in self.times.iter().enumerate() {
            for (column, of_type) in of_flag.iter().enumerate() {
                for (outcome, &times) in of_type.iter().enumerate() {
                    if asked(outcome) && possible(flag == 1, TYPES[column], outcome) {
                        let what = name(outcome);
                        let line = format!("{}, {} first, {what}", FLAGS[flag], TYPES[column]);
                        lines.push((line, times));
                    }
                }
            }
        }
        lines
    }
}

fn column(packet_type: u8) -> usize {
    match packet_type {
        200..=204 => usize::from(packet_type - 200),
        207 => 5,
        211 => 6,
        _ => 7,
    }
}

fn name(outcome: usize) -> String {
    match outcome {
        REFUSED_BEHIND => String::from("refused at a later packet"),
        LONE_ACCEPTED => String::from("accepted, a lone packet"),
        LONE_PADDED => String::from("3, a lone packet, well padded"),
        FIRST_PADDED => String::from("3, not alone, well padded"),
        number => answer_name(number),
    }
}

/// The final byte is as document 01 has it for a packet that may be padded.
fn good_padding(packet: &[u8]) -> bool {
    let padding = usize::from(packet[packet.len() - 1]);
    padding != 0 && padding.is_multiple_of(4) && padding <= packet.len() - 4
}

/// Whether the paper lets this come of a first packet.
fn possible(reduced_size: bool, packet_type: &str, outcome: usize) -> bool {
    let walked = reduced_size || ["SR", "RR"].contains(&packet_type);
    match outcome {
        1..=3 | LONE_PADDED | FIRST_PADDED => true,
        4 => !walked,
        5 => walked && ["SR", "RR", "BYE", "XR", "211"].contains(&packet_type),
        6 | 7 => walked && packet_type == "XR",
        _ => walked,
    }
}
