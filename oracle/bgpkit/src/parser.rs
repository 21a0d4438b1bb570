//! Glue where the crate's parser modules stand, with 01's two replacements: the body parsers that a full record
//! parse calls are body checks, and the Zebra short form is never seen. The third, by 02, wish 14, is made in
//! `recovery.rs` itself (`build.rs`): its scan takes no type 5.

use crate::body_check;
use crate::error::ParserError as Error;
use crate::models::{Bgp4MpEnum, BgpElem, Checked, MrtRecord, TableDumpV2Type};
use crate::stand_ins::bytes::Bytes;
use mrt::messages::table_dump_v2::{peer_index_table, rib_afi_entries};
use std::cell::Cell;

own_file!("utils");

pub use crate::error::{ParserError, ParserErrorWithBytes};
pub use utils::*;

pub mod bgp;
pub mod iters;
pub mod mrt;

thread_local! {
    static OWN_PARSERS: Cell<bool> = const { Cell::new(false) };
}

/// Runs `work` without the replacements where the crate's own parser is at hand: types 16 and 17, and of type 13 the
/// peer table and the RIB records; its scan takes type 5. BGP messages and attributes are still kept as octets.
pub fn with_own_parsers<T>(work: impl FnOnce() -> T) -> T {
    OWN_PARSERS.set(true);
    let result = work();
    OWN_PARSERS.set(false);
    result
}

pub(crate) fn own_parsers() -> bool {
    OWN_PARSERS.get()
}

pub(crate) fn parse_bgp4mp(subtype: u16, body: Bytes) -> Result<Bgp4MpEnum, Error> {
    if own_parsers() {
        return mrt::messages::own::bgp4mp::parse_bgp4mp(subtype, body);
    }
    body_check::bgp4mp(subtype, body).map(|()| Bgp4MpEnum::Checked)
}

pub(crate) fn parse_legacy_bgp(subtype: u16, body: Bytes) -> Result<Checked, Error> {
    body_check::legacy(subtype, &body).map(|()| Checked)
}

pub(crate) fn parse_table_dump_v2_message(subtype: u16, body: Bytes) -> Result<Checked, Error> {
    if own_parsers() {
        return own_table_dump_v2(subtype, body);
    }
    body_check::table_dump_v2(subtype, body).map(|()| Checked)
}

fn own_table_dump_v2(subtype: u16, mut body: Bytes) -> Result<Checked, Error> {
    match TableDumpV2Type::try_from(subtype)? {
        TableDumpV2Type::PeerIndexTable => peer_index_table::parse_peer_index_table(&mut body).map(|_| Checked),
        rib => rib_afi_entries::parse_rib_afi_entries(&mut body, rib).map(|_| Checked),
    }
}

/// The crate may take a body for several routes; its file is not at hand, and the check takes it for one.
pub(crate) fn parse_table_dump_messages(subtype: u16, body: Bytes) -> Result<Vec<Checked>, Error> {
    body_check::table_dump(subtype, body).map(|()| vec![Checked])
}

/// What a recovering iterator is made from. No filters, no text dumps, no core dumps.
pub struct BgpkitParser<R> {
    reader: R,
    core_dump: bool,
    filters: Vec<Filter>,
    options: ParserOptions,
    text_dump_iter: Option<()>,
}

impl<R> BgpkitParser<R> {
    pub fn from_reader(reader: R) -> Self {
        BgpkitParser { reader, core_dump: false, filters: Vec::new(), options: ParserOptions, text_dump_iter: None }
    }

    pub fn into_recovering_record_iter(
        self,
        config: iters::recovery::RecoveryConfig,
    ) -> iters::recovery::RecoveringRecordIterator<R> {
        iters::recovery::RecoveringRecordIterator::new(self, config)
    }
}

pub(crate) struct ParserOptions;

impl ParserOptions {
    pub(crate) fn warn_zebra_compat_once(&mut self) {}
}

pub struct Filter;

pub trait Filterable {
    fn match_filters(&self, filters: &[Filter]) -> bool;
}

impl Filterable for BgpElem {
    fn match_filters(&self, _filters: &[Filter]) -> bool {
        true
    }
}

#[derive(Default)]
pub struct Elementor;

impl Elementor {
    pub fn new() -> Self {
        Elementor
    }

    pub fn record_to_elems(&mut self, _record: MrtRecord) -> Vec<BgpElem> {
        Vec::new()
    }
}
