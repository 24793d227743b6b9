//! A parent's stream as its file holds it.

use std::fs::File;
use std::io::{self, ErrorKind, Read};
use std::path::Path;

use crate::psi::{PACKET, Packet, SYNC};

/// Bytes read at once: whole packets of either kind.
const BLOCK: usize = 188 * 192 / 4 * 29;
/// In a plain file every so many packets one has a time.
const TIMED_EVERY: u64 = 1000;
const PACKET_TICKS: u128 = 40_608_000_000;
const STAMP_BITS: u32 = 30;

#[derive(Clone, Copy, PartialEq)]
enum Kind {
    /// Packets of 188 bytes.
    Plain,
    /// Four bytes with the arrival before each packet.
    Timed,
}

impl Kind {
    fn seen_in(bytes: &[u8]) -> Option<Kind> {
        [Kind::Plain, Kind::Timed].into_iter().find(|kind| {
            let sync_at = |packet: usize| bytes.get(kind.head() + packet * kind.length());
            sync_at(0) == Some(&SYNC) && (1..3).all(|i| sync_at(i).is_none_or(|&byte| byte == SYNC))
        })
    }

    fn length(self) -> usize {
        self.head() + PACKET
    }

    fn head(self) -> usize {
        match self {
            Kind::Plain => 0,
            Kind::Timed => 4,
        }
    }
}

#[derive(Debug)]
pub enum Fault {
    Io(io::Error),
    Empty,
    NeitherKind,
    CutPacket { offset: u64 },
}

impl From<io::Error> for Fault {
    fn from(error: io::Error) -> Fault {
        Fault::Io(error)
    }
}

/// A packet and the time that it is handed with.
pub struct Handed<'a> {
    pub packet: &'a Packet,
    pub time: Option<u64>,
    /// Where the packet stands in its file.
    pub offset: u64,
}

pub struct Stream {
    file: File,
    block: Vec<u8>,
    filled: usize,
    at: usize,
    kind: Kind,
    rate: u64,
    /// The time of packet 0.
    first: u64,
    /// The time and the stamp of the last packet of a timed file.
    last: (u64, u32),
    index: u64,
}

impl Stream {
    pub fn open(path: &Path, rate: u64, first: Option<u64>) -> Result<Stream, Fault> {
        let mut file = File::open(path)?;
        let mut block = vec![0; BLOCK];
        let filled = fill(&mut file, &mut block)?;
        if filled == 0 {
            return Err(Fault::Empty);
        }
        let kind = Kind::seen_in(&block[..filled]).ok_or(Fault::NeitherKind)?;
        let stamp = match kind {
            Kind::Plain => 0,
            Kind::Timed => stamp(&block),
        };
        let first = first.unwrap_or(u64::from(stamp));
        let last = (first, stamp);
        Ok(Stream {
            file,
            block,
            filled,
            at: 0,
            kind,
            rate,
            first,
            last,
            index: 0,
        })
    }

    pub fn first_time(&self) -> u64 {
        self.first
    }

    /// The next packet, or none at the end of the file.
    pub fn next(&mut self) -> Result<Option<Handed<'_>>, Fault> {
        if self.at == self.filled {
            self.filled = fill(&mut self.file, &mut self.block)?;
            self.at = 0;
            if self.filled == 0 {
                return Ok(None);
            }
        }
        let offset = self.index * self.kind.length() as u64;
        let end = self.at + self.kind.length();
        if end > self.filled {
            self.at = self.filled;
            return Err(Fault::CutPacket { offset });
        }
        let time = self.time();
        let packet = self.block[self.at + self.kind.head()..end]
            .try_into()
            .expect("188 bytes");
        self.at = end;
        self.index += 1;
        Ok(Some(Handed {
            packet,
            time,
            offset: offset + self.kind.head() as u64,
        }))
    }

    /// The time of the packet that comes next.
    fn time(&mut self) -> Option<u64> {
        match self.kind {
            Kind::Plain if !self.index.is_multiple_of(TIMED_EVERY) => None,
            Kind::Plain => {
                let ticks = u128::from(self.index) * PACKET_TICKS / u128::from(self.rate);
                Some(self.first.saturating_add(ticks as u64))
            }
            Kind::Timed => {
                let (time, before) = self.last;
                let stamp = stamp(&self.block[self.at..]);
                let passed = stamp.wrapping_sub(before) % (1 << STAMP_BITS);
                self.last = (time.saturating_add(u64::from(passed)), stamp);
                Some(self.last.0)
            }
        }
    }
}

/// The low 30 bits of the first four bytes.
fn stamp(bytes: &[u8]) -> u32 {
    let [a, b, c, d, ..] = *bytes else { return 0 };
    u32::from_be_bytes([a, b, c, d]) % (1 << STAMP_BITS)
}

/// Reads until the block is full or the file ends.
fn fill(file: &mut File, block: &mut [u8]) -> io::Result<usize> {
    let mut filled = 0;
    while filled < block.len() {
        match file.read(&mut block[filled..]) {
            Ok(0) => break,
            Ok(count) => filled += count,
            Err(error) if error.kind() == ErrorKind::Interrupted => {}
            Err(error) => return Err(error),
        }
    }
    Ok(filled)
}
