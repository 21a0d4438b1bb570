//! routes FILE..: who has how many routes in MRT dumps, and what of them could not be read.
//!
//! For each file: the routes of each peer, by the RIB records and their peer table, or by the TABLE_DUMP records; the BGP4MP
//! records of each peer; the records by kind; every gap with its reason; the rows that are missing by the sequence numbers; and a
//! total. Status 0 means that every file was read to its end, 1 that one was not, 2 that no file was named.

use mrt::{Counters, Exhausted, Frame, Gap, Item, Missing, Peer, PeerTable, Record, Refusal, Rib, TableDump, Walk};
use std::collections::BTreeMap;
use std::ffi::{OsStr, OsString};
use std::io::{self, BufWriter, ErrorKind, IsTerminal, Write};
use std::net::IpAddr;
use std::path::Path;
use std::process::ExitCode;
use std::time::{Duration, Instant};
use std::{env, fmt, fs, ops};

fn main() -> ExitCode {
    let files: Vec<_> = env::args_os().skip(1).collect();
    if files.is_empty() {
        eprintln!("routes: name one file or more: routes FILE..");
        return ExitCode::from(2);
    }
    match report_all(&files, &mut BufWriter::new(io::stdout().lock())) {
        Ok(true) => ExitCode::SUCCESS,
        Ok(false) => ExitCode::FAILURE,
        // A reader that has seen enough, as `head` has, is no fault.
        Err(error) if error.kind() == ErrorKind::BrokenPipe => ExitCode::SUCCESS,
        Err(error) => {
            eprintln!("routes: the report cannot be written: {error}");
            ExitCode::FAILURE
        }
    }
}

/// Reports on each file, and says whether all were read to their ends.
fn report_all(files: &[OsString], out: &mut impl Write) -> io::Result<bool> {
    let mut total = Total::default();
    let mut whole = true;
    for file in files {
        match fs::read(file) {
            Ok(stream) => {
                let report = report_one(file, &stream, out)?;
                total += report.total;
                whole &= report.exhausted.is_none();
            }
            Err(error) => {
                eprintln!("routes: {} cannot be read: {error}", file.display());
                whole = false;
            }
        }
    }
    if files.len() > 1 {
        writeln!(out, "all files\n  {total}")?;
    }
    out.flush()?;
    Ok(whole)
}

/// Reports on a file.
fn report_one(file: &OsStr, stream: &[u8], out: &mut impl Write) -> io::Result<Report> {
    let name = file.display();
    let report = Report::of(file, stream);
    write!(out, "{name}\n{report}")?;
    out.flush()?;
    if let Some(packer) = packer(stream).filter(|_| report.total.records == 0) {
        eprintln!("routes: {name} looks packed by {packer}: unpack it first");
    }
    Ok(report)
}

/// The program that packed a file, by the first octets.
fn packer(stream: &[u8]) -> Option<&'static str> {
    let marks: [(&[u8], _); 4] =
        [(b"\x1f\x8b", "gzip"), (b"BZh", "bzip2"), (b"\xfd7zXZ\0", "xz"), (b"\x28\xb5\x2f\xfd", "zstd")];
    marks.into_iter().find(|(mark, _)| stream.starts_with(mark)).map(|(_, packer)| packer)
}

/// What a file has.
#[derive(Default)]
struct Report {
    /// The peers of the last peer table.
    peers: Vec<Peer>,
    routes: BTreeMap<Who, u64>,
    messages: BTreeMap<Who, u64>,
    kinds: BTreeMap<(u16, u16), u64>,
    /// Each gap, and why no record was taken there.
    gaps: Vec<(Gap, String)>,
    exhausted: Option<(Exhausted, String)>,
    /// Fresh for each file: files may be named in any order and be of any collector, so what is said of one hangs on no other. An
    /// agent that follows the rotated files of one daemon keeps its counters from file to file.
    counters: Counters,
    /// The first records before which rows are missing: where each starts, and how many.
    lacking: Vec<(usize, u32)>,
    total: Total,
}

/// A peer, or an index that no peer table explains.
#[derive(PartialEq, Eq, PartialOrd, Ord)]
enum Who {
    Peer(IpAddr, u32),
    Index(u16),
}

#[derive(Default, Clone, Copy)]
struct Total {
    octets: usize,
    records: u64,
    routes: u64,
    /// Entries that RIB records declare and do not hold.
    missing: u64,
    rows: Rows,
    gaps: u64,
    /// Octets in gaps, and octets after an exhausted window.
    lost: usize,
    unread: usize,
}

/// What the sequence numbers say: whole records, where `missing` of the total is of entries inside a record.
#[derive(Default, Clone, Copy)]
struct Rows {
    /// How many records had one of the same type before them.
    compared: u64,
    missing: u64,
    /// How many records had rows missing before them.
    before: u64,
    repeated: u64,
}

impl Report {
    /// So many records before which rows are missing are named.
    const SHOWN: usize = 20;

    /// Walks over a whole file.
    fn of(file: &OsStr, stream: &[u8]) -> Report {
        let mut report = Report::default();
        let mut progress = Progress::new(file, stream.len());
        report.total.octets = stream.len();
        for item in Walk::new(stream) {
            match item {
                Ok(Item::Record(record)) => {
                    report.take(&record);
                    progress.at(record.end);
                }
                Ok(Item::Gap(gap)) => report.take_gap(stream, gap),
                Err(exhausted) => report.stop(stream, exhausted),
            }
        }
        report
    }

    fn take(&mut self, record: &Record<'_>) {
        self.total.records += 1;
        *self.kinds.entry((record.header.kind, record.header.subtype)).or_default() += 1;
        if let Some(missing) = self.counters.count(record) {
            self.take_missing(record.start, missing);
        }
        if let Some(index) = record.peer_index() {
            // A file may have several tables. Each holds for the records after it.
            self.peers = vec![Peer::default(); index.count.into()];
            PeerTable::load(record.body, &mut self.peers).expect("the record was checked, and each peer has a slot");
        } else if let Some(rib) = record.rib() {
            self.take_routes(&rib);
        } else if let Some(dump) = record.table_dump() {
            self.take_route(&dump);
        } else if let Some(who) = neighbour(record) {
            *self.messages.entry(who).or_default() += 1;
        }
    }

    fn take_routes(&mut self, rib: &Rib<'_>) {
        self.total.routes += u64::from(rib.count);
        self.total.missing += u64::from(rib.declared - rib.count);
        for entry in rib.entries() {
            let peer = self.peers.get(usize::from(entry.peer));
            let who = peer.map_or(Who::Index(entry.peer), |peer| Who::Peer(peer.address(), peer.asn));
            *self.routes.entry(who).or_default() += 1;
        }
    }

    /// A TABLE_DUMP record has its peer with it.
    fn take_route(&mut self, dump: &TableDump<'_>) {
        self.total.routes += 1;
        *self.routes.entry(Who::Peer(dump.peer_address(), dump.asn.into())).or_default() += 1;
    }

    fn take_missing(&mut self, start: usize, Missing { rows, repeat, .. }: Missing) {
        let [before, repeated] = [rows > 0, repeat].map(u64::from);
        self.total.rows += Rows { compared: 1, missing: rows.into(), before, repeated };
        if rows > 0 && self.lacking.len() < Report::SHOWN {
            self.lacking.push((start, rows));
        }
    }

    fn take_gap(&mut self, stream: &[u8], gap: Gap) {
        self.total.gaps += 1;
        self.total.lost += gap.end - gap.start;
        self.gaps.push((gap, reason(stream, gap.start, gap.refusal)));
    }

    fn stop(&mut self, stream: &[u8], exhausted: Exhausted) {
        self.total.unread = stream.len() - exhausted.start;
        self.exhausted = Some((exhausted, reason(stream, exhausted.start, exhausted.refusal)));
    }
}

/// Why no record was taken at an offset, with the kind of one that is framed.
fn reason(stream: &[u8], at: usize, refusal: Refusal) -> String {
    match Frame::read(stream, at) {
        Ok(Frame { header, .. }) => format!("{refusal} ({})", words((header.kind, header.subtype))),
        Err(_) => refusal.to_string(),
    }
}

/// The peer of a BGP4MP record (RFC 6396, 4.4): peer AS, local AS, interface, family, peer address.
fn neighbour(record: &Record<'_>) -> Option<Who> {
    let size = match (record.header.kind, record.header.subtype) {
        (16 | 17, 0 | 1 | 6 | 8 | 10) => 2,
        (16 | 17, 4 | 5 | 7 | 9 | 11) => 4,
        _ => return None,
    };
    let asn = record.body.get(..size)?.iter().fold(0, |asn, octet| asn << 8 | u32::from(*octet));
    let (family, rest) = record.body.get(2 * size + 2..)?.split_first_chunk()?;
    let address = match family {
        [0, 1] => IpAddr::from(*rest.first_chunk::<4>()?),
        _ => IpAddr::from(*rest.first_chunk::<16>()?),
    };
    Some(Who::Peer(address, asn))
}

/// A type and subtype in the words of RFC 6396 and RFC 8050.
fn words((kind, subtype): (u16, u16)) -> String {
    let kind_words = match kind {
        5 => "BGP",
        11 => "OSPFv2",
        12 => "TABLE_DUMP",
        13 => "TABLE_DUMP_V2",
        16 => "BGP4MP",
        17 => "BGP4MP_ET",
        32 => "ISIS",
        33 => "ISIS_ET",
        48 => "OSPFv3",
        49 => "OSPFv3_ET",
        _ => "",
    };
    let subtypes: &[&str] = match kind {
        5 => &["NULL", "UPDATE", "PREF_UPDATE", "STATE_CHANGE", "SYNC", "OPEN", "NOTIFY", "KEEPALIVE"],
        12 => &["", "AFI_IPv4", "AFI_IPv6"],
        13 => &TABLE_SUBTYPES,
        16 | 17 => &MESSAGE_SUBTYPES,
        _ => &[],
    };
    let subtype_words = subtypes.get(usize::from(subtype)).unwrap_or(&"");
    format!("{kind}/{subtype} {kind_words} {subtype_words}").trim_end().to_string()
}

const TABLE_SUBTYPES: [&str; 13] = [
    "",
    "PEER_INDEX_TABLE",
    "RIB_IPV4_UNICAST",
    "RIB_IPV4_MULTICAST",
    "RIB_IPV6_UNICAST",
    "RIB_IPV6_MULTICAST",
    "RIB_GENERIC",
    "GEO_PEER_TABLE",
    "RIB_IPV4_UNICAST_ADDPATH",
    "RIB_IPV4_MULTICAST_ADDPATH",
    "RIB_IPV6_UNICAST_ADDPATH",
    "RIB_IPV6_MULTICAST_ADDPATH",
    "RIB_GENERIC_ADDPATH",
];

const MESSAGE_SUBTYPES: [&str; 12] = [
    "STATE_CHANGE",
    "MESSAGE",
    "ENTRY",
    "SNAPSHOT",
    "MESSAGE_AS4",
    "STATE_CHANGE_AS4",
    "MESSAGE_LOCAL",
    "MESSAGE_AS4_LOCAL",
    "MESSAGE_ADDPATH",
    "MESSAGE_AS4_ADDPATH",
    "MESSAGE_LOCAL_ADDPATH",
    "MESSAGE_AS4_LOCAL_ADDPATH",
];

impl fmt::Display for Report {
    fn fmt(&self, f: &mut fmt::Formatter<'_>) -> fmt::Result {
        section(f, "routes of each peer", self.routes.iter().map(|(who, count)| (who.to_string(), *count)))?;
        section(f, "BGP4MP records of each peer", self.messages.iter().map(|(who, count)| (who.to_string(), *count)))?;
        section(f, "records by kind", self.kinds.iter().map(|(kind, count)| (words(*kind), *count)))?;
        if !self.gaps.is_empty() {
            writeln!(f, "  gaps")?;
        }
        for (Gap { start, end, evidence, confirmed, .. }, reason) in &self.gaps {
            writeln!(f, "    {start} to {end}: {reason}; ends at {evidence}, {confirmed} confirmed")?;
        }
        if let Some((Exhausted { start, window, .. }, reason)) = &self.exhausted {
            writeln!(f, "  not read from {start} on: {reason}; no record to go on from within {window} octets")?;
        }
        self.missing_rows(f)?;
        writeln!(f, "  {}", self.total)
    }
}

impl Report {
    /// Where rows are missing, or nothing where none are.
    fn missing_rows(&self, f: &mut fmt::Formatter<'_>) -> fmt::Result {
        if !self.lacking.is_empty() {
            writeln!(f, "  rows missing")?;
        }
        for (start, rows) in &self.lacking {
            writeln!(f, "    at {start}: {rows}")?;
        }
        match self.total.rows.before - self.lacking.len() as u64 {
            0 => Ok(()),
            more => writeln!(f, "    and {more} more"),
        }
    }
}

/// A title and its rows, or nothing where there are none.
fn section(f: &mut fmt::Formatter<'_>, title: &str, rows: impl Iterator<Item = (String, u64)>) -> fmt::Result {
    let rows: Vec<_> = rows.collect();
    let Some(width) = rows.iter().map(|(name, _)| name.len()).max() else {
        return Ok(());
    };
    writeln!(f, "  {title}")?;
    for (name, count) in rows {
        writeln!(f, "    {name:width$}  {count:>9}")?;
    }
    Ok(())
}

impl fmt::Display for Who {
    fn fmt(&self, f: &mut fmt::Formatter<'_>) -> fmt::Result {
        match self {
            Who::Peer(address, asn) => write!(f, "{address} AS {asn}"),
            Who::Index(index) => write!(f, "index {index}, in no peer table"),
        }
    }
}

impl fmt::Display for Total {
    fn fmt(&self, f: &mut fmt::Formatter<'_>) -> fmt::Result {
        let Total { octets, records, routes, missing, rows, gaps, lost, unread } = self;
        write!(f, "total: octets {octets}, records {records}, routes {routes}, gaps {gaps}, octets in gaps {lost}")?;
        if *missing > 0 {
            write!(f, ", routes declared and missing {missing}")?;
        }
        write!(f, "{rows}")?;
        if *unread > 0 {
            write!(f, ", octets not read {unread}")?;
        }
        Ok(())
    }
}

/// Nothing where no two records were compared.
impl fmt::Display for Rows {
    fn fmt(&self, f: &mut fmt::Formatter<'_>) -> fmt::Result {
        let Rows { compared, missing, before, repeated } = self;
        if *compared > 0 {
            write!(f, ", rows missing {missing}")?;
        }
        match before {
            0 => {}
            1 => write!(f, " before 1 record")?,
            _ => write!(f, " before {before} records")?,
        }
        if *repeated > 0 {
            write!(f, ", row numbers repeated {repeated}")?;
        }
        Ok(())
    }
}

impl ops::AddAssign for Total {
    fn add_assign(&mut self, other: Total) {
        self.octets += other.octets;
        self.records += other.records;
        self.routes += other.routes;
        self.missing += other.missing;
        self.rows += other.rows;
        self.gaps += other.gaps;
        self.lost += other.lost;
        self.unread += other.unread;
    }
}

impl ops::AddAssign for Rows {
    fn add_assign(&mut self, other: Rows) {
        self.compared += other.compared;
        self.missing += other.missing;
        self.before += other.before;
        self.repeated += other.repeated;
    }
}

/// How far a long file is read, on a line of the terminal that goes away again.
struct Progress<'a> {
    file: &'a OsStr,
    octets: usize,
    /// When the line was last written, where there is a terminal.
    written: Option<Instant>,
    shown: bool,
}

impl<'a> Progress<'a> {
    const PAUSE: Duration = Duration::from_millis(200);

    fn new(file: &'a OsStr, octets: usize) -> Progress<'a> {
        let written = io::stderr().is_terminal().then(Instant::now);
        Progress { file: Path::new(file).file_name().unwrap_or(file), octets, written, shown: false }
    }

    fn at(&mut self, position: usize) {
        if self.written.is_some_and(|written| Progress::PAUSE < written.elapsed()) {
            eprint!("\r{:3} % of {}", position as u64 * 100 / self.octets as u64, self.file.display());
            (self.written, self.shown) = (Some(Instant::now()), true);
        }
    }
}

impl Drop for Progress<'_> {
    fn drop(&mut self) {
        if self.shown {
            eprint!("\r\x1b[K");
        }
    }
}
