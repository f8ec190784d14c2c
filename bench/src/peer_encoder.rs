//! The writers' peer: a Rust encoder that makes the archive's promise. It
//! checks first, writes into a lent slice and answers how many bytes it wrote;
//! on a refusal it writes nothing and answers the number.

use prunepocket_sys::{ReportMessage, SettingsMessage};

/// Written for speed, and not inlined, since the archive is not. It takes the
/// archive's numbers in the archive's order, so that both sides pass the same.
#[inline(never)]
#[allow(clippy::too_many_arguments)]
fn report(
    sender: u32,
    payload_type: u32,
    p: u32,
    group: u32,
    media: u32,
    received: u64,
    rtp: u32,
    presented: u32,
    buffer: &mut [u8],
) -> Result<u64, u64> {
    if payload_type > 127 || p > 1 || (p == 0 && presented != 0) || group == u32::MAX {
        return Err(11);
    }
    let Some(message) = buffer.first_chunk_mut::<40>() else {
        return Err(10);
    };
    let words = [
        0x80CF_0009,
        sender,
        0x0C10_0007 | p << 16,
        payload_type << 25,
        group,
        media,
        (received >> 32) as u32,
        received as u32,
        rtp,
        presented,
    ];
    put(message, words);
    Ok(40)
}

/// As report.
#[inline(never)]
fn settings(
    sender: u32,
    group: u32,
    media: u32,
    received: u64,
    rtp: u32,
    presented: u64,
    buffer: &mut [u8],
) -> Result<u64, u64> {
    if group == u32::MAX {
        return Err(11);
    }
    let Some(message) = buffer.first_chunk_mut::<36>() else {
        return Err(10);
    };
    let words = [
        0x80D3_0008,
        sender,
        media,
        group,
        (received >> 32) as u32,
        received as u32,
        rtp,
        (presented >> 32) as u32,
        presented as u32,
    ];
    put(message, words);
    Ok(36)
}

#[inline(always)]
fn put<const WORDS: usize>(message: &mut [u8], words: [u32; WORDS]) {
    for (bytes, word) in message.as_chunks_mut().0.iter_mut().zip(words) {
        *bytes = word.to_be_bytes();
    }
}

#[inline(always)]
pub fn write_report(fields: &ReportMessage, buffer: &mut [u8]) -> Result<u64, u64> {
    report(
        fields.sender,
        fields.payload_type,
        fields.p,
        fields.group,
        fields.media,
        fields.received,
        fields.rtp,
        fields.presented,
        buffer,
    )
}

#[inline(always)]
pub fn write_settings(fields: &SettingsMessage, buffer: &mut [u8]) -> Result<u64, u64> {
    settings(
        fields.sender,
        fields.group,
        fields.media,
        fields.received,
        fields.rtp,
        fields.presented,
        buffer,
    )
}
