//! What takes the packets of a frame and has their bytes for the modulator.

use crate::psi::{PACKET, Packet, STUFFING};

pub trait Carrier {
    /// A carrier for frames of this many packets.
    fn new(packets: usize) -> Self;
    fn put(&mut self, packet: &Packet);
    fn bytes(&self) -> &[u8];
    fn empty(&mut self);
}

/// Packets end to end.
pub struct Strip {
    bytes: Vec<u8>,
}

impl Carrier for Strip {
    fn new(packets: usize) -> Strip {
        Strip {
            bytes: Vec::with_capacity(packets * PACKET),
        }
    }

    fn put(&mut self, packet: &Packet) {
        self.bytes.extend_from_slice(packet);
    }

    fn bytes(&self) -> &[u8] {
        &self.bytes
    }

    fn empty(&mut self) {
        self.bytes.clear();
    }
}

/// Stuffing left out, and behind each kept packet the count of what was left out before it
/// (null-packet deletion of EN 302 755).
pub struct Folded {
    bytes: Vec<u8>,
    pending: u8,
}

impl Carrier for Folded {
    fn new(packets: usize) -> Folded {
        Folded {
            bytes: Vec::with_capacity(packets * (PACKET + 1)),
            pending: 0,
        }
    }

    fn put(&mut self, packet: &Packet) {
        if self.pending < u8::MAX && *packet == STUFFING {
            self.pending += 1;
        } else {
            self.bytes.extend_from_slice(packet);
            self.bytes.push(self.pending);
            self.pending = 0;
        }
    }

    fn bytes(&self) -> &[u8] {
        &self.bytes
    }

    fn empty(&mut self) {
        self.bytes.clear();
        self.pending = 0;
    }
}
