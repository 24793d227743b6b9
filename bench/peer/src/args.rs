//! The command line.

use std::path::PathBuf;

pub const USAGE: &str = "\
usage: peer CONFIG PARENT0.ts [PARENT1.ts ..] -o OUT [options]

    -o FILE             where the multiplex goes
    --slots N           slots in each frame (1000)
    --start TICKS       start of the first frame (the latest of the parents' first times)
    --frames COUNT      frames skipped, followed or added, at most (as many as the input allows)
    --carrier KIND      strip or folded (strip)
    --entries COUNT     waiting memory in entries (the backlog and 4096 for each parent)
    --time P TICKS      time of the first packet of parent P (0, or the first stamp)
    --miss P COUNT      packets at the beginning of parent P that are missed (0)
    -v                  a line for each frame
    --help              this text

example: peer mux.conf parent0.ts parent1.ts -o out.ts --slots 120 -v";

pub const PARENTS: usize = 4;

pub enum CarrierKind {
    Strip,
    Folded,
}

pub struct Args {
    pub config: PathBuf,
    pub parents: Vec<PathBuf>,
    pub out: PathBuf,
    pub slots: u64,
    pub start: Option<u64>,
    pub frames: u64,
    pub carrier: CarrierKind,
    pub entries: Option<usize>,
    pub times: [Option<u64>; PARENTS],
    pub misses: [u64; PARENTS],
    pub verbose: bool,
}

pub enum Asked {
    Help,
    Job(Box<Args>),
}

impl Default for Args {
    fn default() -> Args {
        Args {
            config: PathBuf::new(),
            parents: Vec::new(),
            out: PathBuf::new(),
            slots: 1000,
            start: None,
            frames: u64::MAX,
            carrier: CarrierKind::Strip,
            entries: None,
            times: [None; PARENTS],
            misses: [0; PARENTS],
            verbose: false,
        }
    }
}

pub fn parse(mut words: impl Iterator<Item = String>) -> Result<Asked, String> {
    let mut args = Box::new(Args::default());
    let mut files = Vec::new();
    let mut out = None;
    while let Some(word) = words.next() {
        let words = &mut words;
        match word.as_str() {
            "--help" => return Ok(Asked::Help),
            "-o" => out = Some(value(words, &word)?),
            "--slots" => args.slots = number(words, &word)?,
            "--start" => args.start = Some(number(words, &word)?),
            "--frames" => args.frames = number(words, &word)?,
            "--carrier" => args.carrier = carrier_kind(&value(words, &word)?)?,
            "--entries" => args.entries = Some(number(words, &word)? as usize),
            "--time" => {
                let parent = parent(words, &word)?;
                args.times[parent] = Some(number(words, &word)?);
            }
            "--miss" => {
                let parent = parent(words, &word)?;
                args.misses[parent] = number(words, &word)?;
            }
            "-v" => args.verbose = true,
            _ if word.starts_with('-') => return Err(format!("unknown option {word}")),
            _ => files.push(PathBuf::from(word)),
        }
    }
    if files.len() < 2 {
        return Err("a configuration and the parents' files are needed".to_string());
    }
    args.config = files.remove(0);
    args.parents = files;
    args.out = PathBuf::from(out.ok_or("-o is needed")?);
    Ok(Asked::Job(args))
}

fn value(words: &mut impl Iterator<Item = String>, option: &str) -> Result<String, String> {
    words
        .next()
        .ok_or_else(|| format!("{option} needs a value"))
}

fn number(words: &mut impl Iterator<Item = String>, option: &str) -> Result<u64, String> {
    let word = value(words, option)?;
    word.parse()
        .map_err(|_| format!("{option}: {word} is no number"))
}

fn parent(words: &mut impl Iterator<Item = String>, option: &str) -> Result<usize, String> {
    match number(words, option)? {
        parent if parent < PARENTS as u64 => Ok(parent as usize),
        parent => Err(format!("{option}: there is no parent {parent}")),
    }
}

fn carrier_kind(word: &str) -> Result<CarrierKind, String> {
    match word {
        "strip" => Ok(CarrierKind::Strip),
        "folded" => Ok(CarrierKind::Folded),
        _ => Err(format!("--carrier: {word} is neither strip nor folded")),
    }
}
