//! The configuration text. It is taken to be a checked one: what does not parse is
//! refused, but ranges and clashes are not looked for.

pub struct Config {
    /// Frame length in ticks of 27 MHz.
    pub ticks: u64,
    /// How many packets the backlog holds.
    pub backlog: usize,
    /// PAT copies in a frame.
    pub copies: u64,
    pub transport_stream_id: u16,
    /// Bits per second, for each parent.
    pub rates: Vec<u64>,
    pub rows: Vec<Row>,
}

#[derive(Clone, Copy, PartialEq)]
pub enum Kind {
    Pass,
    Pmt,
}

/// A map row.
#[derive(Clone, Copy)]
pub struct Row {
    pub parent: usize,
    pub pid: u16,
    pub out: u16,
    pub kind: Kind,
    pub service: u16,
}

impl Config {
    pub fn parse(text: &str) -> Option<Config> {
        let mut tables = text.split("\n\n");
        let [ticks, backlog, copies, transport_stream_id] = only(table(tables.next()?))?;
        let rates = table(tables.next()?).map(rate).collect::<Option<_>>()?;
        let rows = table(tables.next()?).map(row).collect::<Option<_>>()?;
        Some(Config {
            ticks: ticks.parse().ok()?,
            backlog: backlog.parse().ok()?,
            copies: copies.parse().ok()?,
            transport_stream_id: transport_stream_id.parse().ok()?,
            rates,
            rows,
        })
    }
}

/// The lines of values of a table.
fn table(text: &str) -> impl Iterator<Item = &str> {
    text.lines().skip(1)
}

fn only<'a>(mut lines: impl Iterator<Item = &'a str>) -> Option<[&'a str; 4]> {
    fields(lines.next()?)
}

fn fields<const N: usize>(line: &str) -> Option<[&str; N]> {
    line.split(' ').collect::<Vec<_>>().try_into().ok()
}

fn rate(line: &str) -> Option<u64> {
    let [_, rate] = fields(line)?;
    rate.parse().ok()
}

fn row(line: &str) -> Option<Row> {
    let [parent, pid, out, kind, service] = fields(line)?;
    Some(Row {
        parent: parent.parse().ok()?,
        pid: pid.parse().ok()?,
        out: out.parse().ok()?,
        kind: match kind {
            "pass" => Kind::Pass,
            "pmt" => Kind::Pmt,
            _ => return None,
        },
        service: service.parse().ok()?,
    })
}
