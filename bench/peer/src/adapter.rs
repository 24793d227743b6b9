//! The adapter: hears parents, takes framing records and places packets in frames.

use std::collections::VecDeque;
use std::fmt::{self, Display, Formatter};

use crate::carrier::Carrier;
use crate::config::{Config, Kind};
use crate::psi::{self, Map, Packet, STUFFING};

/// The latest time that is taken.
pub const LATEST: u64 = 1 << 60;
/// Records that wait, at most.
pub const RECORDS: usize = 8;
/// Entries in a parent's line, at most.
pub const LINE: usize = 4096;
/// Ticks that a packet lasts, times bits per second: 188 × 8 × 27,000,000.
const PACKET_TICKS: u64 = 40_608_000_000;
/// Packets without a time that may follow an anchor.
const COUNTED: u64 = 100_000;

#[derive(Clone, Copy)]
pub struct Record {
    pub number: u32,
    pub start: u64,
    pub slots: u64,
}

pub enum Heard {
    PassedOver,
    Unpatchable,
    Held,
    /// A bad packet; the parent is lost.
    Bad,
    /// A time that cannot be; the parent is lost.
    Mistimed,
    /// The line is full; the packet was not taken.
    Full,
}

pub enum Framed {
    Skipped {
        number: u32,
    },
    Followed {
        number: u32,
        dropped: u64,
    },
    Added {
        number: u32,
        dropped: u64,
        stuffing: u64,
    },
    /// Some parent is not heard up to the end of the frame.
    Unheard,
}

impl Display for Framed {
    fn fmt(&self, f: &mut Formatter) -> fmt::Result {
        match self {
            Framed::Skipped { number } => write!(f, "skipped {number}"),
            Framed::Followed { number, dropped } => {
                write!(f, "followed {number} dropped {dropped}")
            }
            Framed::Added {
                number, dropped, ..
            } => write!(f, "added {number} dropped {dropped}"),
            Framed::Unheard => write!(f, "unheard"),
        }
    }
}

#[derive(Clone, Copy)]
enum Step {
    Out,
    Following { doubt: usize },
    In,
}

#[derive(Clone, Copy)]
struct Times {
    anchor: u64,
    /// Packets taken after the anchor.
    count: u64,
    from: u64,
    heard_to: u64,
}

struct Waiting {
    arrival: u64,
    packet: Packet,
}

/// What is known of a parent.
struct Hearing {
    rate: u64,
    times: Option<Times>,
    line: VecDeque<Waiting>,
}

/// The times of a parent with the next packet taken.
enum Next {
    Unanchored,
    Mistimed,
    Taken(Times),
}

impl Hearing {
    fn next(&self, time: Option<u64>) -> Next {
        match (self.times, time) {
            (None, None) => Next::Unanchored,
            (None, Some(time)) if time <= LATEST => Next::Taken(Times {
                anchor: time,
                count: 0,
                from: time,
                heard_to: time,
            }),
            (Some(times), Some(time)) if time <= LATEST && time > times.heard_to => {
                Next::Taken(Times {
                    anchor: time,
                    count: 0,
                    heard_to: time,
                    ..times
                })
            }
            (Some(times), None) if times.count < COUNTED => {
                let count = times.count + 1;
                let heard_to = times.anchor + count * PACKET_TICKS / self.rate;
                Next::Taken(Times {
                    count,
                    heard_to,
                    ..times
                })
            }
            _ => Next::Mistimed,
        }
    }

    fn let_go_before(&mut self, moment: u64) {
        while self
            .line
            .front()
            .is_some_and(|waiting| waiting.arrival < moment)
        {
            self.line.pop_front();
        }
    }

    fn set_from(&mut self, from: u64) {
        if let Some(times) = &mut self.times {
            times.from = from;
        }
    }
}

pub struct Adapter {
    ticks: u64,
    copies: u64,
    backlog_size: usize,
    line_size: usize,
    pat: Packet,
    map: Map,
    hearings: Vec<Hearing>,
    backlog: VecDeque<Packet>,
    records: VecDeque<Record>,
    step: Step,
}

impl Adapter {
    /// The caller has seen to it that there are as many entries as the backlog and the parents ask for.
    pub fn new(config: &Config, entries: usize) -> Adapter {
        let line_size = LINE.min((entries - config.backlog) / config.rates.len());
        let hearing = |&rate: &u64| Hearing {
            rate,
            times: None,
            line: VecDeque::with_capacity(line_size),
        };
        Adapter {
            ticks: config.ticks,
            copies: config.copies,
            backlog_size: config.backlog,
            line_size,
            pat: psi::pat(config),
            map: Map::new(config),
            hearings: config.rates.iter().map(hearing).collect(),
            backlog: VecDeque::with_capacity(config.backlog),
            records: VecDeque::with_capacity(RECORDS),
            step: Step::Out,
        }
    }

    /// The arrival of the last packet taken from a parent.
    pub fn heard_to(&self, parent: usize) -> Option<u64> {
        self.hearings[parent].times.map(|times| times.heard_to)
    }

    pub fn oldest_record(&self) -> Option<Record> {
        self.records.front().copied()
    }

    pub fn takes_records(&self) -> bool {
        self.records.len() < RECORDS
    }

    /// Takes a record; each follows the one before it.
    pub fn record(&mut self, record: Record) {
        self.records.push_back(record);
    }

    pub fn hear(&mut self, parent: usize, packet: &Packet, time: Option<u64>) -> Heard {
        if !psi::is_good(packet) {
            self.lose(parent);
            return Heard::Bad;
        }
        match self.hearings[parent].next(time) {
            Next::Unanchored => Heard::PassedOver,
            Next::Mistimed => {
                self.lose(parent);
                Heard::Mistimed
            }
            Next::Taken(times) => self.take(parent, packet, times),
        }
    }

    fn take(&mut self, parent: usize, packet: &Packet, times: Times) -> Heard {
        let hearing = &mut self.hearings[parent];
        let arrival = times.heard_to;
        let row = match self.map.row(parent, psi::pid(packet)) {
            Some(row) if arrival >= times.from => row,
            _ => {
                hearing.times = Some(times);
                return Heard::PassedOver;
            }
        };
        let packet = match row.kind {
            Kind::Pass => {
                let mut packet = *packet;
                psi::set_pid(&mut packet, row.out);
                packet
            }
            Kind::Pmt => match psi::patch(packet, row, &self.map) {
                Some(packet) => packet,
                None => {
                    hearing.times = Some(times);
                    return Heard::Unpatchable;
                }
            },
        };
        if hearing.line.len() == self.line_size {
            return Heard::Full;
        }
        hearing.line.push_back(Waiting { arrival, packet });
        hearing.times = Some(times);
        Heard::Held
    }

    /// Anchor, times and line of a parent go.
    pub fn lose(&mut self, parent: usize) {
        let hearing = &mut self.hearings[parent];
        hearing.times = None;
        hearing.line.clear();
        self.fall_out_of_step();
    }

    fn fall_out_of_step(&mut self) {
        self.backlog.clear();
        self.step = Step::Out;
    }

    /// Places the oldest record's frame. The carrier is empty and has a place for each slot.
    pub fn frame<C: Carrier>(&mut self, record: Record, carrier: &mut C) -> Framed {
        let Some(latest) = self.latest_from() else {
            return Framed::Unheard;
        };
        if record.start < latest {
            self.skip_to(latest);
            return Framed::Skipped {
                number: record.number,
            };
        }
        let end = record.start + self.ticks;
        if self
            .hearings
            .iter()
            .any(|hearing| hearing.times.is_none_or(|times| times.heard_to < end))
        {
            return Framed::Unheard;
        }
        let framed = match self.step {
            Step::In => self.add(record, carrier),
            Step::Following { doubt } => self.follow(record, doubt),
            Step::Out => {
                self.let_go_before(record.start);
                self.follow(record, self.backlog_size)
            }
        };
        self.records.pop_front();
        self.set_from(end);
        framed
    }

    /// The latest from-time, if every parent has one.
    fn latest_from(&self) -> Option<u64> {
        let from = |hearing: &Hearing| hearing.times.map(|times| times.from);
        self.hearings
            .iter()
            .map(from)
            .try_fold(0, |latest, from| Some(latest.max(from?)))
    }

    fn skip_to(&mut self, moment: u64) {
        while self
            .records
            .front()
            .is_some_and(|record| record.start < moment)
        {
            self.records.pop_front();
        }
        self.let_go_before(moment);
        self.set_from(moment);
        self.fall_out_of_step();
    }

    fn let_go_before(&mut self, moment: u64) {
        self.hearings
            .iter_mut()
            .for_each(|hearing| hearing.let_go_before(moment));
    }

    fn set_from(&mut self, from: u64) {
        self.hearings
            .iter_mut()
            .for_each(|hearing| hearing.set_from(from));
    }

    fn add<C: Carrier>(&mut self, record: Record, carrier: &mut C) -> Framed {
        let mut dropped = 0;
        let mut stuffing = 0;
        let slots = Slots::new(record, self.ticks, self.copies);
        for slot in slots {
            dropped += self.admit(slot.end).dropped;
            match slot.kind {
                SlotKind::Pat { copy } => {
                    let count = u64::from(record.number) * self.copies + copy;
                    self.pat[3] = 0x10 | (count % 16) as u8;
                    carrier.put(&self.pat);
                }
                SlotKind::Data => match self.backlog.pop_front() {
                    Some(packet) => carrier.put(&packet),
                    None => {
                        carrier.put(&STUFFING);
                        stuffing += 1;
                    }
                },
            }
        }
        Framed::Added {
            number: record.number,
            dropped,
            stuffing,
        }
    }

    /// Places a frame that goes nowhere, and moves the doubt.
    fn follow(&mut self, record: Record, mut doubt: usize) -> Framed {
        let mut dropped = 0;
        let mut clear = false;
        let slots = Slots::new(record, self.ticks, self.copies);
        for slot in slots {
            let admission = self.admit(slot.end);
            dropped += admission.dropped;
            doubt = self.backlog_size.min(doubt + admission.admitted);
            if let SlotKind::Data = slot.kind {
                self.backlog.pop_front();
                doubt = doubt.saturating_sub(1);
            }
            clear |= doubt == 0;
        }
        self.step = if clear {
            Step::In
        } else {
            Step::Following { doubt }
        };
        Framed::Followed {
            number: record.number,
            dropped,
        }
    }

    /// Moves every packet that arrives before a moment from the lines to the backlog.
    fn admit(&mut self, moment: u64) -> Admission {
        let mut admission = Admission {
            admitted: 0,
            dropped: 0,
        };
        while let Some(packet) = self.first_before(moment) {
            admission.admitted += 1;
            if self.backlog.len() < self.backlog_size {
                self.backlog.push_back(packet);
            } else {
                admission.dropped += 1;
            }
        }
        admission
    }

    /// Takes the packet that arrives first, the lower parent's at equal times.
    fn first_before(&mut self, moment: u64) -> Option<Packet> {
        let mut first = None;
        let mut earliest = moment;
        for hearing in &mut self.hearings {
            if let Some(waiting) = hearing.line.front()
                && waiting.arrival < earliest
            {
                earliest = waiting.arrival;
                first = Some(&mut hearing.line);
            }
        }
        first?.pop_front().map(|waiting| waiting.packet)
    }
}

struct Admission {
    admitted: usize,
    dropped: u64,
}

enum SlotKind {
    Pat { copy: u64 },
    Data,
}

struct Slot {
    /// What arrives before this moment is admitted.
    end: u64,
    kind: SlotKind,
}

/// The slots of a frame, one after the other.
struct Slots {
    record: Record,
    ticks: u64,
    copies: u64,
    slot: u64,
    copy: u64,
}

impl Slots {
    fn new(record: Record, ticks: u64, copies: u64) -> Slots {
        Slots {
            record,
            ticks,
            copies,
            slot: 0,
            copy: 0,
        }
    }

    /// The PAT copy that the slot takes, if any.
    fn kind(&mut self) -> SlotKind {
        let copy = self.copy;
        if copy < self.copies && self.slot == copy * self.record.slots / self.copies {
            self.copy += 1;
            SlotKind::Pat { copy }
        } else {
            SlotKind::Data
        }
    }
}

impl Iterator for Slots {
    type Item = Slot;

    fn next(&mut self) -> Option<Slot> {
        if self.slot == self.record.slots {
            return None;
        }
        let kind = self.kind();
        self.slot += 1;
        let end = self.record.start + self.slot * self.ticks / self.record.slots;
        Some(Slot { end, kind })
    }
}
