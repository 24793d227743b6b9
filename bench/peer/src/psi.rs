//! Transport packets, PATs and PMTs of ISO/IEC 13818-1.

use crate::config::{Config, Kind, Row};

pub const PACKET: usize = 188;
pub const SYNC: u8 = 0x47;
pub const NULL_PID: u16 = 0x1FFF;

pub type Packet = [u8; PACKET];

pub const STUFFING: Packet = {
    let mut packet = [0xFF; PACKET];
    packet[0] = SYNC;
    packet[1] = 0x1F;
    packet[3] = 0x10;
    packet
};

/// Sync byte in place and no transport error told.
pub fn is_good(packet: &Packet) -> bool {
    packet[0] == SYNC && packet[1] & 0x80 == 0
}

pub fn pid(packet: &Packet) -> u16 {
    pid_at(packet, 1)
}

pub fn set_pid(packet: &mut Packet, pid: u16) {
    set_pid_at(packet, 1, pid);
}

/// The low 13 bits of the two bytes at a place.
fn pid_at(bytes: &[u8], at: usize) -> u16 {
    u16::from_be_bytes([bytes[at], bytes[at + 1]]) & 0x1FFF
}

/// Sets the low 13 bits and leaves the three above them.
fn set_pid_at(bytes: &mut [u8], at: usize, pid: u16) {
    bytes[at] = bytes[at] & 0xE0 | (pid >> 8) as u8;
    bytes[at + 1] = pid as u8;
}

/// The low 12 bits of the two bytes at a place.
fn length_at(bytes: &[u8], at: usize) -> usize {
    usize::from(bytes[at] & 0x0F) << 8 | usize::from(bytes[at + 1])
}

fn set_length_at(bytes: &mut [u8], at: usize, length: usize) {
    bytes[at] = bytes[at] & 0xF0 | (length >> 8) as u8;
    bytes[at + 1] = length as u8;
}

const CRC_TABLE: [u32; 256] = {
    let mut table = [0; 256];
    let mut byte = 0;
    while byte < 256 {
        let mut register = (byte as u32) << 24;
        let mut bit = 0;
        while bit < 8 {
            let polynomial = if register >> 31 == 1 { 0x04C1_1DB7 } else { 0 };
            register = register << 1 ^ polynomial;
            bit += 1;
        }
        table[byte] = register;
        byte += 1;
    }
    table
};

pub fn crc(bytes: &[u8]) -> u32 {
    bytes.iter().fold(u32::MAX, |register, byte| {
        register << 8 ^ CRC_TABLE[((register >> 24) as u8 ^ byte) as usize]
    })
}

/// Writes the CRC of a section that starts at 5 and has its first byte of CRC at `end`.
fn seal(packet: &mut Packet, end: usize) {
    let crc = crc(&packet[5..end]);
    packet[end..end + 4].copy_from_slice(&crc.to_be_bytes());
}

/// Which row has a parent's PID.
pub struct Map {
    rows: Vec<Row>,
    by_pid: Vec<[u8; 8192]>,
}

const NO_ROW: u8 = u8::MAX;

impl Map {
    pub fn new(config: &Config) -> Map {
        let mut by_pid = vec![[NO_ROW; 8192]; config.rates.len()];
        for (number, row) in config.rows.iter().enumerate() {
            by_pid[row.parent][usize::from(row.pid)] = number as u8;
        }
        Map {
            rows: config.rows.clone(),
            by_pid,
        }
    }

    pub fn row(&self, parent: usize, pid: u16) -> Option<&Row> {
        match self.by_pid[parent][usize::from(pid)] {
            NO_ROW => None,
            number => Some(&self.rows[usize::from(number)]),
        }
    }
}

/// The PAT that a frame's copies are made from; its continuity counter is 0.
pub fn pat(config: &Config) -> Packet {
    let mut packet = [0xFF; PACKET];
    packet[..8].copy_from_slice(&[SYNC, 0x40, 0, 0x10, 0, 0, 0xB0, 0]);
    packet[8..10].copy_from_slice(&config.transport_stream_id.to_be_bytes());
    packet[10..13].copy_from_slice(&[0xC1, 0, 0]);
    let mut end = 13;
    for row in config.rows.iter().filter(|row| row.kind == Kind::Pmt) {
        packet[end..end + 2].copy_from_slice(&row.service.to_be_bytes());
        packet[end + 2..end + 4].copy_from_slice(&(0xE000 | row.out).to_be_bytes());
        end += 4;
    }
    set_length_at(&mut packet, 6, end + 4 - 8);
    seal(&mut packet, end);
    packet
}

/// A PMT packet with the row's service and the map's PIDs, or none if it cannot be patched.
pub fn patch(packet: &Packet, row: &Row, map: &Map) -> Option<Packet> {
    let crc_at = section_end(packet)?;
    let streams_at = 17 + length_at(packet, 15);
    let mut patched = [0xFF; PACKET];
    patched
        .get_mut(..streams_at)?
        .copy_from_slice(packet.get(..streams_at)?);
    let mut from = streams_at;
    let mut to = streams_at;
    while from < crc_at {
        let length = stream_length(&packet[from..crc_at])?;
        if let Some(stream) = map.row(row.parent, pid_at(packet, from + 1)) {
            patched[to..to + length].copy_from_slice(&packet[from..from + length]);
            set_pid_at(&mut patched, to + 1, stream.out);
            to += length;
        }
        from += length;
    }
    if from != crc_at {
        return None;
    }
    set_pid(&mut patched, row.out);
    set_length_at(&mut patched, 6, to + 4 - 8);
    patched[8..10].copy_from_slice(&row.service.to_be_bytes());
    let clock = map.row(row.parent, pid_at(packet, 13));
    set_pid_at(&mut patched, 13, clock.map_or(NULL_PID, |row| row.out));
    seal(&mut patched, to);
    Some(patched)
}

/// Where the CRC of the one whole PMT section stands, if its head and its CRC are right.
fn section_end(packet: &Packet) -> Option<usize> {
    let starts_here = packet[1] & 0x40 != 0 && packet[3] & 0xF0 == 0x10 && packet[4] == 0;
    let is_pmt = packet[5] == 2 && packet[6] & 0x80 != 0;
    let is_alone = packet[11] == 0 && packet[12] == 0;
    let length = length_at(packet, 6);
    if !(starts_here && is_pmt && is_alone && (13..=180).contains(&length)) {
        return None;
    }
    let end = 8 + length;
    (crc(&packet[5..end]) == 0).then_some(end - 4)
}

/// The length of the stream entry at the beginning of a loop's rest, if it fits.
fn stream_length(rest: &[u8]) -> Option<usize> {
    let length = 5 + length_at(rest.get(..5)?, 3);
    (length <= rest.len()).then_some(length)
}
