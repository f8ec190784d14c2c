//! Raw values of the flag for reduced size on a lone XR, through every function
//! that takes it: 0 says that it was not agreed, every other value that it was.

use prunepocket_sys::functions::{
    prunepocket_count_items, prunepocket_item_field, prunepocket_read_items,
    prunepocket_take_datagram,
};
use prunepocket_sys::{Answer, Origin, Reading, Table};
use prunepocket_tests::items::ROW;

/// The report of P5, which the table of document 01 takes at its reading.
const LONE_XR: [u32; 10] = [
    0x80CF_0009,
    20,
    0x0C11_0007,
    0x4200_0000,
    42,
    7,
    998,
    0,
    8_820_000,
    0x03E6_C000,
];

const READING: Reading = Reading {
    ntp: 1000 << 32,
    rtp: 9_000_000,
};

/// A bit in each byte, the sign alone, and all bits.
const AGREED: [u32; 8] = [1, 2, 255, 256, 65_536, 1 << 24, 1 << 31, u32::MAX];

/// What lent memory holds before a call.
const BEFORE: u64 = u64::MAX;

/// Number and place of each call; then the count, the item's source, the count
/// beside the rows and the item's place in them.
type Read = ([(u64, u64); 3], [u64; 4]);

fn read(reduced_size: u32) -> Read {
    let datagram = LONE_XR.map(u32::to_be_bytes).concat();
    let (bytes, length) = (datagram.as_ptr(), datagram.len());
    let (mut count, mut source, mut rows) = (BEFORE, BEFORE, BEFORE);
    let mut row = [BEFORE; ROW];
    let first = row.as_mut_ptr();
    // SAFETY: pointers and lengths are those of live arrays and numbers, none of
    // which share memory.
    let answers = unsafe {
        [
            prunepocket_count_items(bytes, length, reduced_size, &mut count),
            prunepocket_item_field(bytes, length, reduced_size, 0, 2, &mut source),
            prunepocket_read_items(bytes, length, reduced_size, first, ROW, &mut rows),
        ]
    };
    let pair = |answer: Answer| (answer.number, answer.place);
    (answers.map(pair), [count, source, rows, row[1]])
}

/// Number and place; then the number of the report's call, how many calls and how
/// many members there are.
type Taken = ((u64, u64), [u64; 3]);

fn taken(reduced_size: u32) -> Taken {
    let datagram = LONE_XR.map(u32::to_be_bytes).concat();
    let table = Table::open(42, 7, 90_000).expect("it opens");
    let mut numbers = [BEFORE; 1];
    // SAFETY: as in read; all else is passed by value.
    let taken = unsafe {
        prunepocket_take_datagram(
            table,
            datagram.as_ptr(),
            datagram.len(),
            reduced_size,
            Origin::default(),
            READING,
            numbers.as_mut_ptr(),
            numbers.len(),
        )
    };
    let members = taken.table.count_members().into();
    let answer = (taken.number, taken.place);
    (answer, [numbers[0], taken.count, members])
}

#[test]
fn zero_says_that_it_was_not_agreed() {
    assert_eq!(read(0), ([(4, 0); 3], [BEFORE; 4]));
    assert_eq!(taken(0), ((4, 0), [BEFORE, 0, 0]));
}

#[test]
fn every_other_value_says_that_it_was_agreed() {
    for value in AGREED {
        assert_eq!(read(value), ([(0, 0); 3], [1, 20, 1, 8]), "{value:#x}");
        assert_eq!(taken(value), ((0, 0), [0, 1, 1]), "{value:#x}");
    }
}
