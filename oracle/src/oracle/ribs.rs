//! RIB bodies. The crate does not keep the declared count, so that comes from the reading; the age is computed here
//! from the crate's originated time. Attributes are octets to the crate's stand-in, which accepts all of them.

use super::words;
use crate::answers::{Answer, Builder, NewEntry, NewRows, RibEntry, RibTable, Rowed};
use crate::reading;
use crate::subject::NewHead;
use bgpkit_part::models::{Attributes, NetworkPrefix, RibAfiEntries, TableDumpV2Type};
use bgpkit_part::parser::mrt::messages::table_dump_v2::rib_afi_entries::parse_rib_afi_entries;
use bgpkit_part::{models, Bytes, IpNet};
use std::net::{IpAddr, Ipv4Addr, Ipv6Addr};

fn parse(subtype: u16, body: &[u8]) -> Result<RibAfiEntries, u8> {
    let rib_type = TableDumpV2Type::try_from(subtype).map_err(|_| 6)?;
    parse_rib_afi_entries(&mut Bytes::copy_from_slice(body), rib_type).map_err(|error| {
        match words::number(&error.to_string()) {
            6 => 6,
            _ => 7,
        }
    })
}

pub fn read(subtype: u16, body: &[u8]) -> Answer<RibTable> {
    let table = parse(subtype, body).map(|rib| RibTable {
        sequence: rib.sequence_number,
        bits: rib.prefix.prefix.prefix_len,
        prefix: octets_of(rib.prefix.prefix.addr),
        declared: reading::read_rib(subtype, body).value.declared,
        read: rib.rib_entries.len() as u16,
    });
    table.into()
}

fn octets_of(address: IpAddr) -> [u8; 16] {
    let mut octets = [0; 16];
    match address {
        IpAddr::V4(ip) => octets[..4].copy_from_slice(&ip.octets()),
        IpAddr::V6(ip) => octets = ip.octets(),
    }
    octets
}

fn has_path(subtype: u16) -> bool {
    (8..=11).contains(&subtype)
}

fn is_ipv6(subtype: u16) -> bool {
    matches!(subtype, 4 | 5 | 10 | 11)
}

pub fn entry(subtype: u16, body: &[u8], timestamp: u32, index: usize) -> Answer<RibEntry> {
    let entry = parse(subtype, body).and_then(|rib| {
        let entry = rib.rib_entries.get(index).ok_or(8)?;
        let attributes_at = attributes_at(subtype, &rib, index);
        Ok(RibEntry {
            peer_index: entry.peer_index,
            originated: entry.originated_time,
            path: entry.path_id.unwrap_or(0),
            attributes_at: if same_at(body, attributes_at, &entry.attributes) { attributes_at } else { usize::MAX },
            attributes_len: entry.attributes.0.len(),
            age: i64::from(timestamp) - i64::from(entry.originated_time),
        })
    });
    entry.into()
}

/// The crate keeps copies of attributes. Their place is the sum of the sizes of what it read before them.
fn attributes_at(subtype: u16, rib: &RibAfiEntries, index: usize) -> usize {
    let fixed = if has_path(subtype) { 12 } else { 8 };
    let head = 7 + usize::from(rib.prefix.prefix.prefix_len).div_ceil(8);
    let before: usize = rib.rib_entries[..index].iter().map(|entry| fixed + entry.attributes.0.len()).sum();
    head + before + fixed
}

fn same_at(body: &[u8], at: usize, attributes: &Attributes) -> bool {
    body.get(at..).is_some_and(|rest| rest.starts_with(&attributes.0))
}

/// Asked where there is room. Whether the bits fit and how they are written is the stand-in's answer.
pub fn begin(out: &mut [u8], head: &NewHead) -> Option<Answer<usize>> {
    let rib_type = match TableDumpV2Type::try_from(head.subtype) {
        Ok(rib_type) if is_ipv6(head.subtype) || matches!(head.subtype, 2 | 3 | 8 | 9) => rib_type,
        _ => return Some(Err(6).into()),
    };
    let [a, b, c, d, ..] = head.prefix;
    let address = match is_ipv6(head.subtype) {
        true => IpAddr::V6(Ipv6Addr::from(head.prefix)),
        false => IpAddr::V4(Ipv4Addr::new(a, b, c, d)),
    };
    let Ok(prefix) = IpNet::new(address, head.bits) else {
        return Some(Err(10).into());
    };
    let rib = RibAfiEntries {
        rib_type,
        sequence_number: head.sequence,
        prefix: NetworkPrefix::new(prefix, None),
        rib_entries: Vec::new(),
    };
    put(out, &rib)
}

fn put(out: &mut [u8], rib: &RibAfiEntries) -> Option<Answer<usize>> {
    let Ok(octets) = rib.encode() else {
        return Some(Err(10).into());
    };
    out.get_mut(..octets.len())?.copy_from_slice(&octets);
    Some(Ok(octets.len()).into())
}

/// The crate has no body to add to: the old one is read, given the entry, and written anew. That is asked only where
/// reading and writing the old one gives the same octets.
pub fn add(buffer: &mut [u8], length: usize, subtype: u16, entry: &NewEntry) -> Option<Answer<usize>> {
    let body = buffer.get(..length)?;
    let mut rib = match parse(subtype, body) {
        Ok(rib) => rib,
        Err(refusal) => return Some(Err(refusal).into()),
    };
    if rib.encode().ok()?[..] != *body {
        return None;
    }
    rib.rib_entries.push(with_copy(subtype, entry));
    put(buffer, &rib)
}

fn with_copy(subtype: u16, entry: &NewEntry) -> models::RibEntry {
    models::RibEntry {
        peer_index: entry.peer_index,
        originated_time: entry.originated,
        path_id: (has_path(subtype) || entry.path != 0).then_some(entry.path),
        attributes: Attributes(Bytes::copy_from_slice(entry.attributes)),
    }
}

/// So with the entries of all rows, which the crate writes at once. It is asked where the builder is that of a whole body and
/// every row goes in; the builder is the caller's.
pub fn push_rows(buffer: &mut [u8], subtype: u16, builder: Builder, rows: &NewRows) -> Option<Answer<Rowed>> {
    let body = buffer.get(..builder.length)?;
    let mut rib = parse(subtype, body).ok()?;
    let count_at = 5 + usize::from(rib.prefix.prefix.prefix_len).div_ceil(8);
    let stands = (builder.count_at, builder.count) == (count_at, rib.rib_entries.len() as u64);
    let whole_rows = rows.values.chunks_exact(5).remainder().is_empty();
    if !stands || !whole_rows || rib.encode().ok()?[..] != *body {
        return None;
    }
    for row in rows.values.chunks_exact(5) {
        rib.rib_entries.push(with_copy(subtype, &fit(subtype, row, rows.attributes)?));
    }
    let count = u16::try_from(rib.rib_entries.len()).ok()?.into();
    let Answer { refusal, value: length } = put(buffer, &rib)?;
    let rowed = Rowed { rows: rows.values.len() / 5, builder: Builder { length, count_at, count } };
    Some(if refusal == 0 { Ok(rowed) } else { Err(refusal) }.into())
}

/// The entry of a row, where each value fits its field.
fn fit<'a>(subtype: u16, row: &[u64], buffer: &'a [u8]) -> Option<NewEntry<'a>> {
    let &[peer, originated, path, start, end] = row else {
        return None;
    };
    let attributes = buffer.get(start as usize..end as usize).filter(|attributes| attributes.len() <= 65_535)?;
    let entry = NewEntry {
        peer_index: u16::try_from(peer).ok()?,
        originated: u32::try_from(originated).ok()?,
        path: u32::try_from(path).ok()?,
        attributes,
    };
    (has_path(subtype) || entry.path == 0).then_some(entry)
}
