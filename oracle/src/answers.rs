//! What is asked about and answered, in 01's numbers. All three sides of a comparison speak in these types.

/// 01's refusal number, 0 where the call is accepted, and the values, all 0 where it is refused.
#[derive(Debug, Clone, Copy, PartialEq, Eq, Default)]
pub struct Answer<T> {
    pub refusal: u8,
    pub value: T,
}

impl<T: Default> From<Result<T, u8>> for Answer<T> {
    #[inline]
    fn from(result: Result<T, u8>) -> Self {
        match result {
            Ok(value) => Answer { refusal: 0, value },
            Err(refusal) => Answer { refusal, value: T::default() },
        }
    }
}

/// The common header. `wire` is the length as it stands in the octets, `stored` the length of the body alone.
/// `micros` is 0 where the type has none.
#[derive(Debug, Clone, Copy, PartialEq, Eq, Default)]
pub struct Header {
    pub timestamp: u32,
    pub kind: u16,
    pub subtype: u16,
    pub wire: u32,
    pub stored: u32,
    pub micros: u32,
}

/// A record in its stream: its header, where its body starts, and where it ends.
#[derive(Debug, Clone, Copy, PartialEq, Eq, Default)]
pub struct Frame {
    pub header: Header,
    pub body: usize,
    pub end: usize,
}

/// One slot of a lent list of peers. A four-octet address stands in the first four of the sixteen. It lies in memory as
/// the exports' own, so that slots are lent to them as they are.
#[derive(Debug, Clone, Copy, PartialEq, Eq, Default)]
#[repr(C)]
pub struct Peer {
    pub kind: u8,
    pub id: u32,
    pub address: [u8; 16],
    pub asn: u32,
}

impl Peer {
    pub fn has_ipv6(&self) -> bool {
        self.kind & 1 != 0
    }

    pub fn has_wide_as(&self) -> bool {
        self.kind & 2 != 0
    }
}

/// An address to look up: its family and its octets, of which IPv4 has the first four.
#[derive(Debug, Clone, Copy, PartialEq, Eq, Default)]
pub struct Address {
    pub ipv6: bool,
    pub octets: [u8; 16],
}

/// What stands in a peer table before its peers. The view name is a part of the body.
#[derive(Debug, Clone, Copy, PartialEq, Eq, Default)]
pub struct PeerTable {
    pub collector: u32,
    pub view_at: usize,
    pub view_len: usize,
    pub count: usize,
}

/// What stands in a RIB body before its entries, and how many of the declared entries fit.
#[derive(Debug, Clone, Copy, PartialEq, Eq, Default)]
pub struct RibTable {
    pub sequence: u32,
    pub bits: u8,
    pub prefix: [u8; 16],
    pub declared: u16,
    pub read: u16,
}

/// One RIB entry. The attributes are a part of the body; `path` is 0 where the subtype has none.
#[derive(Debug, Clone, Copy, PartialEq, Eq, Default)]
pub struct RibEntry {
    pub peer_index: u16,
    pub originated: u32,
    pub path: u32,
    pub attributes_at: usize,
    pub attributes_len: usize,
    pub age: i64,
}

/// What a cursor comes to: the entry there, where one is handed out, and the cursor after it. The age is not asked for.
#[derive(Debug, Clone, Copy, PartialEq, Eq, Default)]
pub struct RibStep {
    pub handed: bool,
    pub entry: RibEntry,
    pub at: usize,
    pub left: u16,
}

/// Where a body ends that can be given entries, where its count stands, and that count.
#[derive(Debug, Clone, Copy, PartialEq, Eq, Default)]
pub struct Builder {
    pub length: usize,
    pub count_at: usize,
    pub count: u64,
}

/// An entry to be written.
#[derive(Debug, Clone, Copy, PartialEq, Eq, Default)]
pub struct NewEntry<'a> {
    pub peer_index: u16,
    pub originated: u32,
    pub path: u32,
    pub attributes: &'a [u8],
}

/// Entries to be written, five values each: peer index, originated time, path number, where the attributes start in the one
/// buffer, where they end. The values may be any.
#[derive(Debug, Clone, Copy, PartialEq, Eq, Default)]
pub struct NewRows<'a> {
    pub values: &'a [u64],
    pub attributes: &'a [u8],
}

/// How many rows went into a body, and the builder after them.
#[derive(Debug, Clone, Copy, PartialEq, Eq, Default)]
pub struct Rowed {
    pub rows: usize,
    pub builder: Builder,
}

/// The route of a TABLE_DUMP body. Prefix and peer address stand in the first four or all of sixteen octets; the AS number has
/// two octets in the body.
#[derive(Debug, Clone, Copy, PartialEq, Eq, Default)]
pub struct DumpedRoute {
    pub view: u16,
    pub sequence: u16,
    pub prefix: [u8; 16],
    pub bits: u8,
    pub status: u8,
    pub originated: u32,
    pub peer: [u8; 16],
    pub asn: u32,
}

/// A TABLE_DUMP body that was read. The attributes are a part of it.
#[derive(Debug, Clone, Copy, PartialEq, Eq, Default)]
pub struct TableDump {
    pub route: DumpedRoute,
    pub attributes_at: usize,
    pub attributes_end: usize,
}

/// A TABLE_DUMP body to be written.
#[derive(Debug, Clone, Copy, PartialEq, Eq, Default)]
pub struct NewDump<'a> {
    pub subtype: u16,
    pub route: DumpedRoute,
    pub attributes: &'a [u8],
}

/// A candidate of the scan. All is 0 where none stands.
#[derive(Debug, Clone, Copy, PartialEq, Eq, Default)]
pub struct Candidate {
    pub stands: bool,
    pub evidence: u8,
    pub end: usize,
}

/// What came of trying a record's own end.
#[derive(Debug, Clone, Copy, PartialEq, Eq, Default)]
pub struct Tried {
    pub passed: bool,
    pub confirmed: u8,
}

/// What a scan found.
#[derive(Debug, Clone, Copy, PartialEq, Eq, Default)]
pub struct Found {
    pub found: bool,
    pub offset: usize,
    pub evidence: u8,
}

/// The last sequence number of each MRT type that has them, and whether one was seen: `table` of type 13, `dump` of type 12. The
/// default is before the first record.
#[derive(Debug, Clone, Copy, PartialEq, Eq, Default)]
pub struct Counters {
    pub table_seen: bool,
    pub table: u32,
    pub dump_seen: bool,
    pub dump: u16,
}

/// What lies between a row and the last one of its type: so many rows, or none since it has the same number.
#[derive(Debug, Clone, Copy, PartialEq, Eq, Default)]
pub struct Missing {
    pub missing: u32,
    pub repeat: bool,
}

impl Missing {
    /// The line of the listing, which stands after that of the record that starts there.
    pub fn line(&self, start: usize) -> String {
        format!("S\t{start}\t{}\t{}", self.missing, u8::from(self.repeat))
    }
}

/// The counters after a record, and what is told of it where it is a row with another before it.
#[derive(Debug, Clone, Copy, PartialEq, Eq, Default)]
pub struct Counted {
    pub counters: Counters,
    pub told: Option<Missing>,
}

/// Held by the caller between two calls. A fresh walk is the default one.
#[derive(Debug, Clone, Copy, PartialEq, Eq, Default)]
pub struct Walk {
    pub position: usize,
    pub finished: bool,
}

/// What one call of a walk answers.
#[derive(Debug, Clone, Copy, PartialEq, Eq)]
pub enum Event {
    Record {
        start: usize,
        end: usize,
        kind: u16,
        subtype: u16,
    },
    Gap {
        start: usize,
        end: usize,
        refusal: u8,
        evidence: u8,
        confirmed: u8,
    },
    End {
        offset: usize,
    },
    /// Refusal 11: nothing was found in the window.
    Window {
        start: usize,
        window: usize,
        refusal: u8,
    },
    /// Refusal 8: the walk's position is beyond the stream.
    Beyond,
}

impl Event {
    /// No call after this one says anything new.
    pub fn is_last(&self) -> bool {
        !matches!(self, Event::Record { .. } | Event::Gap { .. })
    }

    /// The line of 01's listing program for this answer, and `X start window refusal` for a refusal 11.
    pub fn line(&self) -> String {
        match *self {
            Event::Record { start, end, kind, subtype } => format!("R\t{start}\t{end}\t{kind}\t{subtype}"),
            Event::Gap { start, end, refusal, evidence, confirmed } => {
                format!("G\t{start}\t{end}\t{refusal}\t{evidence}\t{confirmed}")
            }
            Event::End { offset } => format!("E\t{offset}"),
            Event::Window { start, window, refusal } => format!("X\t{start}\t{window}\t{refusal}"),
            Event::Beyond => "X\t8".to_string(),
        }
    }
}
