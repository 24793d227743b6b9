//! The job: hear the parents up to the end of each frame, place it, write it.

use std::fmt::{self, Display};
use std::fs::{self, File};
use std::io::{self, BufWriter, Write};
use std::path::Path;

use crate::adapter::{Adapter, Framed, Heard, LATEST, LINE, Record};
use crate::args::{Args, CarrierKind};
use crate::carrier::{Carrier, Folded, Strip};
use crate::config::Config;
use crate::psi::SYNC;
use crate::stream::{Fault, Stream};

/// Slots that a frame may have, at most.
const SLOTS: u64 = 4096;
const OUTPUT_BLOCK: usize = 256 * 1024;

#[derive(Default)]
struct Counters {
    heard: u64,
    passed: u64,
    unpatchable: u64,
    held: u64,
    bad: u64,
    mistimed: u64,
    full: u64,
    skipped: u64,
    followed: u64,
    added: u64,
    put: u64,
    stuffing: u64,
    dropped: u64,
}

impl Display for Counters {
    fn fmt(&self, f: &mut fmt::Formatter) -> fmt::Result {
        write!(f, "heard {} passed {} ", self.heard, self.passed)?;
        write!(f, "unpatchable {} held {} ", self.unpatchable, self.held)?;
        write!(f, "refused {} {} {} ", self.bad, self.mistimed, self.full)?;
        write!(f, "lost {} ", self.bad + self.mistimed + self.full)?;
        write!(f, "skipped {} followed {} ", self.skipped, self.followed)?;
        write!(f, "added {} put {} ", self.added, self.put)?;
        write!(f, "stuffing {} dropped {}", self.stuffing, self.dropped)
    }
}

struct Job<'a> {
    args: &'a Args,
    ticks: u64,
    start: u64,
    given: u64,
    streams: Vec<Stream>,
    adapter: Adapter,
    counters: Counters,
    /// What cut a parent's input short.
    fault: Option<String>,
}

pub fn run(args: &Args) -> Result<(), String> {
    let text = fs::read_to_string(&args.config).map_err(|error| told(&args.config, error))?;
    let config = Config::parse(&text).ok_or("refused configuration")?;
    let job = prepare(args, &config)?;
    match args.carrier {
        CarrierKind::Strip => job.run::<Strip>(),
        CarrierKind::Folded => job.run::<Folded>(),
    }
}

fn prepare<'a>(args: &'a Args, config: &Config) -> Result<Job<'a>, String> {
    let parents = config.rates.len();
    if args.parents.len() != parents {
        return Err(format!(
            "{} files for {parents} parents",
            args.parents.len()
        ));
    }
    if args.slots < config.copies || args.slots > SLOTS {
        return Err(format!("a frame cannot have {} slots", args.slots));
    }
    let entries = args.entries.unwrap_or(config.backlog + parents * LINE);
    if entries < config.backlog + parents {
        return Err(format!("{entries} entries are too few"));
    }
    let streams = open_streams(args, config)?;
    let latest = streams.iter().map(Stream::first_time).max().unwrap_or(0);
    Ok(Job {
        args,
        ticks: config.ticks,
        start: args.start.unwrap_or(latest),
        given: 0,
        streams,
        adapter: Adapter::new(config, entries),
        counters: Counters::default(),
        fault: None,
    })
}

fn open_streams(args: &Args, config: &Config) -> Result<Vec<Stream>, String> {
    let mut streams = Vec::new();
    for (parent, (path, &rate)) in args.parents.iter().zip(&config.rates).enumerate() {
        let stream = Stream::open(path, rate, args.times[parent]);
        streams.push(stream.map_err(|fault| stream_fault(path, fault))?);
    }
    Ok(streams)
}

impl Job<'_> {
    fn run<C: Carrier>(mut self) -> Result<(), String> {
        let path = &self.args.out;
        let file = File::create(path).map_err(|error| told(path, error))?;
        let mut out = BufWriter::with_capacity(OUTPUT_BLOCK, file);
        let mut lines = io::stdout().lock();
        let mut carrier = C::new(self.args.slots as usize);
        self.miss()?;
        while self.frames_done() < self.args.frames {
            self.give_records();
            let Some(record) = self.adapter.oldest_record() else {
                break;
            };
            self.hear_parents(record)?;
            let framed = self.adapter.frame(record, &mut carrier);
            if let Framed::Unheard = framed {
                break;
            }
            self.count_frame(&framed);
            if self.args.verbose {
                writeln!(lines, "{framed}").map_err(|error| error.to_string())?;
            }
            out.write_all(carrier.bytes())
                .map_err(|error| told(path, error))?;
            carrier.empty();
        }
        out.flush().map_err(|error| told(path, error))?;
        writeln!(lines, "{}", self.counters).map_err(|error| error.to_string())?;
        self.fault.map_or(Ok(()), Err)
    }

    fn frames_done(&self) -> u64 {
        self.counters.skipped + self.counters.followed + self.counters.added
    }

    /// Passes by the packets that this rack misses.
    fn miss(&mut self) -> Result<(), String> {
        for parent in 0..self.streams.len() {
            for _ in 0..self.args.misses[parent] {
                match self.streams[parent].next() {
                    Ok(Some(_)) => {}
                    Ok(None) => break,
                    Err(fault) => self.input_ends(parent, fault)?,
                }
            }
        }
        Ok(())
    }

    /// Gives as many records ahead as the adapter takes.
    fn give_records(&mut self) {
        while self.adapter.takes_records() {
            let start = u128::from(self.start) + u128::from(self.given) * u128::from(self.ticks);
            let (Ok(number), true) = (u32::try_from(self.given), start <= u128::from(LATEST))
            else {
                return;
            };
            self.adapter.record(Record {
                number,
                start: start as u64,
                slots: self.args.slots,
            });
            self.given += 1;
        }
    }

    /// Hears each parent up to the end of the record's frame, or to the end of its input.
    fn hear_parents(&mut self, record: Record) -> Result<(), String> {
        let end = record.start + self.ticks;
        for parent in 0..self.streams.len() {
            while self
                .adapter
                .heard_to(parent)
                .is_none_or(|heard_to| heard_to < end)
            {
                if !self.hear_next(parent)? {
                    break;
                }
            }
        }
        Ok(())
    }

    /// Hears a parent's next packet; false at the end of its input.
    fn hear_next(&mut self, parent: usize) -> Result<bool, String> {
        let handed = match self.streams[parent].next() {
            Ok(Some(handed)) => handed,
            Ok(None) => return Ok(false),
            Err(fault) => return self.input_ends(parent, fault).map(|()| false),
        };
        if handed.packet[0] != SYNC {
            let name = self.args.parents[parent].display();
            eprintln!("peer: {name}: sync lost at byte {}", handed.offset);
        }
        let heard = self.adapter.hear(parent, handed.packet, handed.time);
        self.counters.heard += 1;
        match heard {
            Heard::PassedOver => self.counters.passed += 1,
            Heard::Unpatchable => self.counters.unpatchable += 1,
            Heard::Held => self.counters.held += 1,
            Heard::Bad => self.counters.bad += 1,
            Heard::Mistimed => self.counters.mistimed += 1,
            Heard::Full => {
                self.counters.full += 1;
                self.adapter.lose(parent);
            }
        }
        Ok(true)
    }

    /// A cut packet is told when all before it is used; any other fault is told at once.
    fn input_ends(&mut self, parent: usize, fault: Fault) -> Result<(), String> {
        let is_cut = matches!(fault, Fault::CutPacket { .. });
        let fault = stream_fault(&self.args.parents[parent], fault);
        if !is_cut {
            return Err(fault);
        }
        self.fault.get_or_insert(fault);
        Ok(())
    }

    fn count_frame(&mut self, framed: &Framed) {
        let counters = &mut self.counters;
        match framed {
            Framed::Skipped { .. } => counters.skipped += 1,
            Framed::Followed { dropped, .. } => {
                counters.followed += 1;
                counters.dropped += dropped;
            }
            Framed::Added {
                dropped, stuffing, ..
            } => {
                counters.added += 1;
                counters.dropped += dropped;
                counters.put += self.args.slots;
                counters.stuffing += stuffing;
            }
            Framed::Unheard => {}
        }
    }
}

fn told(path: &Path, error: io::Error) -> String {
    format!("{}: {error}", path.display())
}

fn stream_fault(path: &Path, fault: Fault) -> String {
    match fault {
        Fault::Io(error) => told(path, error),
        Fault::Empty => format!("{}: empty", path.display()),
        Fault::NeitherKind => format!("{}: neither 188-byte nor 192-byte packets", path.display()),
        Fault::CutPacket { offset } => {
            format!(
                "{}: ends in the middle of the packet at byte {offset}",
                path.display()
            )
        }
    }
}
