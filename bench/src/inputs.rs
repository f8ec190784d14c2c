//! The datagrams that are timed.

/// Datagrams that are timed together, their name, and whether reduced size was
/// agreed with their sender.
pub struct Input {
    pub name: &'static str,
    pub reduced_size: bool,
    pub datagrams: Vec<Vec<u8>>,
}

const NOISE: usize = 512;

/// All but the last are read where reduced size was not agreed.
pub fn inputs([not_agreed, agreed]: [bool; 2]) -> Vec<Input> {
    let behind_rr = |blocks| idms_blocks(receiver_report(), blocks);
    vec![
        one("RR + XR, 1 IDMS block", not_agreed, behind_rr(1)),
        one("farewells", not_agreed, farewells(2048)),
        one("RR + XR, 50 IDMS blocks", not_agreed, behind_rr(50)),
        one("four-byte XR blocks", not_agreed, short_blocks(2048)),
        Input {
            name: "noise (average)",
            reduced_size: not_agreed,
            datagrams: noise(),
        },
        one("XR alone, 1 IDMS block", agreed, idms_blocks(Vec::new(), 1)),
    ]
}

pub fn one(name: &'static str, reduced_size: bool, datagram: Vec<u8>) -> Input {
    Input {
        name,
        reduced_size,
        datagrams: vec![datagram],
    }
}

/// An RR of 8 bytes with count 0.
pub fn receiver_report() -> Vec<u8> {
    vec![0x80, 201, 0, 1, 0, 0, 0, 1]
}

pub fn put_header(datagram: &mut Vec<u8>, count: usize, packet_type: u8, words: usize) {
    let length = (words - 1) as u16;
    datagram.extend([0x80 | count as u8, packet_type]);
    datagram.extend(length.to_be_bytes());
}

/// One XR packet of reports, which differ in their times, behind what is there.
fn idms_blocks(mut datagram: Vec<u8>, blocks: usize) -> Vec<u8> {
    put_header(&mut datagram, 0, 207, 2 + 8 * blocks);
    datagram.extend(20u32.to_be_bytes());
    for block in 0..blocks as u32 {
        let words = [
            0x0C11_0007,
            0x4200_0000,
            42,
            7,
            998 + block,
            0,
            8_820_000 + 90_000 * block,
            0x03E6_C000 + (block << 16),
        ];
        datagram.extend(words.iter().flat_map(|word| word.to_be_bytes()));
    }
    datagram
}

/// An RR, then BYE packets of 31 sources and one of the remainder.
pub fn farewells(length: usize) -> Vec<u8> {
    let mut datagram = receiver_report();
    while datagram.len() + 8 <= length {
        let words = ((length - datagram.len()) / 4).min(32);
        put_header(&mut datagram, words - 1, 203, words);
        for source in 1..words as u32 {
            datagram.extend(source.to_be_bytes());
        }
    }
    datagram
}

/// An RR, then one XR packet of blocks with length 0.
pub fn short_blocks(length: usize) -> Vec<u8> {
    let mut datagram = receiver_report();
    put_header(&mut datagram, 0, 207, (length - 8) / 4);
    datagram.extend(20u32.to_be_bytes());
    while datagram.len() < length {
        datagram.extend([4, 0, 0, 0]);
    }
    datagram
}

fn noise() -> Vec<Vec<u8>> {
    let mut random = Random(0x7272);
    (0..NOISE)
        .map(|_| {
            let length = random.below(2049);
            (0..length).map(|_| random.below(256) as u8).collect()
        })
        .collect()
}

/// SplitMix64.
pub struct Random(pub u64);

impl Random {
    pub fn number(&mut self) -> u64 {
        self.0 = self.0.wrapping_add(0x9E37_79B9_7F4A_7C15);
        let mut mixed = self.0;
        mixed = (mixed ^ (mixed >> 30)).wrapping_mul(0xBF58_476D_1CE4_E5B9);
        mixed = (mixed ^ (mixed >> 27)).wrapping_mul(0x94D0_49BB_1331_11EB);
        mixed ^ (mixed >> 31)
    }

    pub fn below(&mut self, bound: usize) -> usize {
        (self.number() >> 16) as usize % bound
    }
}
