//! The exports of the proved library as `include/mrt.h` declares them, and a safe call over each.

use crate::answers::{NewDump, NewEntry, Peer};

/// What a writer returns: the octets written, 0 where it refuses.
#[repr(C)]
#[derive(Debug, Clone, Copy, PartialEq, Eq)]
pub struct Written {
    pub octets: u64,
    pub refusal: u32,
}

/// What a call for many rows returns: how many it served, 0 where it refuses.
#[repr(C)]
#[derive(Debug, Clone, Copy, PartialEq, Eq)]
pub struct Handed {
    pub count: u64,
    pub refusal: u32,
}

/// What a lookup and an add return: the peer's id, 0 where they refuse.
#[repr(C)]
#[derive(Debug, Clone, Copy, PartialEq, Eq)]
pub struct Found {
    pub refusal: u32,
    pub id: u32,
}

mod raw {
    use super::{Found, Handed, Peer, Written};

    extern "C" {
        pub fn mrt_read_header(s: *const u8, len: usize, at: usize, out: *mut u64, places: usize) -> u32;
        pub fn mrt_frame(s: *const u8, len: usize, at: usize, out: *mut u64, places: usize) -> u32;
        pub fn mrt_judge(s: *const u8, len: usize, at: usize, out: *mut u64, places: usize) -> u32;
        pub fn mrt_candidate(s: *const u8, len: usize, at: usize, out: *mut u64, places: usize) -> u32;
        pub fn mrt_check_body(body: *const u8, len: usize, kind: u16, subtype: u16, stored: u32) -> u32;
        pub fn mrt_write_header(
            out: *mut u8,
            room: usize,
            timestamp: u32,
            kind: u16,
            subtype: u16,
            stored: u32,
            micros: u32,
        ) -> Written;
        pub fn mrt_next(
            s: *const u8,
            len: usize,
            walk: *mut u64,
            walk_places: usize,
            window: usize,
            asked: u8,
            out: *mut u64,
            places: usize,
        ) -> u32;
        pub fn mrt_records(
            s: *const u8,
            len: usize,
            walk: *mut u64,
            walk_places: usize,
            out: *mut u64,
            places: usize,
        ) -> Handed;
        pub fn mrt_check_peers(body: *const u8, len: usize, out: *mut u64, places: usize) -> u32;
        pub fn mrt_load_peers(body: *const u8, len: usize, slots: *mut Peer, slots_len: usize) -> u32;
        pub fn mrt_find_peer(
            slots: *const Peer,
            slots_len: usize,
            count: usize,
            kind: u8,
            address: *const u8,
            address_len: usize,
        ) -> Found;
        pub fn mrt_add_peer(
            slots: *mut Peer,
            slots_len: usize,
            count: usize,
            kind: u8,
            id: u32,
            address: *const u8,
            address_len: usize,
            asn: u32,
        ) -> Found;
        pub fn mrt_write_peers(
            out: *mut u8,
            room: usize,
            collector: u32,
            view: *const u8,
            view_len: usize,
            slots: *const Peer,
            slots_len: usize,
            count: usize,
        ) -> Written;
        pub fn mrt_read_rib(
            body: *const u8,
            len: usize,
            subtype: u16,
            out: *mut u64,
            places: usize,
            prefix: *mut u8,
            prefix_len: usize,
        ) -> u32;
        pub fn mrt_rib_entry(body: *const u8, len: usize, subtype: u16, i: usize, out: *mut u64, places: usize) -> u32;
        pub fn mrt_rib_first(body: *const u8, len: usize, subtype: u16, out: *mut u64, places: usize) -> u32;
        pub fn mrt_rib_next(
            body: *const u8,
            len: usize,
            subtype: u16,
            at: usize,
            left: u16,
            out: *mut u64,
            places: usize,
        ) -> u32;
        pub fn mrt_rib_entries(
            body: *const u8,
            len: usize,
            subtype: u16,
            cursor: *mut u64,
            cursor_places: usize,
            out: *mut u64,
            places: usize,
        ) -> Handed;
        pub fn mrt_age(timestamp: u32, originated: u32) -> i64;
        pub fn mrt_begin_rib(
            out: *mut u8,
            room: usize,
            subtype: u16,
            sequence: u32,
            bits: u8,
            prefix: *const u8,
            prefix_len: usize,
        ) -> Written;
        pub fn mrt_add_entry(
            out: *mut u8,
            room: usize,
            len: usize,
            subtype: u16,
            peer: u16,
            originated: u32,
            path: u32,
            attributes: *const u8,
            attributes_len: usize,
        ) -> Written;
        pub fn mrt_open_rib(body: *const u8, len: usize, subtype: u16, out: *mut u64, places: usize) -> u32;
        pub fn mrt_push_entry(
            out: *mut u8,
            room: usize,
            subtype: u16,
            builder: *mut u64,
            builder_places: usize,
            peer: u16,
            originated: u32,
            path: u32,
            attributes: *const u8,
            attributes_len: usize,
        ) -> u32;
        pub fn mrt_push_entries(
            out: *mut u8,
            room: usize,
            subtype: u16,
            builder: *mut u64,
            builder_places: usize,
            rows: *const u64,
            values: usize,
            attributes: *const u8,
            attributes_len: usize,
        ) -> Handed;
        pub fn mrt_read_table_dump(
            body: *const u8,
            len: usize,
            subtype: u16,
            out: *mut u64,
            places: usize,
            prefix: *mut u8,
            prefix_len: usize,
            peer: *mut u8,
            peer_len: usize,
        ) -> u32;
        pub fn mrt_write_table_dump(
            out: *mut u8,
            room: usize,
            subtype: u16,
            view: u16,
            sequence: u16,
            prefix: *const u8,
            prefix_len: usize,
            bits: u8,
            status: u8,
            originated: u32,
            peer: *const u8,
            peer_len: usize,
            asn: u32,
            attributes: *const u8,
            attributes_len: usize,
        ) -> Written;
        pub fn mrt_missing(
            body: *const u8,
            len: usize,
            kind: u16,
            subtype: u16,
            counters: *mut u64,
            counters_places: usize,
            out: *mut u64,
            places: usize,
        ) -> u32;
    }
}

/// The refusal and the values of an export that hands `N` values out. `call` is lent the places.
#[inline]
fn values<const N: usize>(call: impl FnOnce(*mut u64, usize) -> u32) -> (u32, [u64; N]) {
    let mut out = [0; N];
    let refusal = call(out.as_mut_ptr(), N);
    (refusal, out)
}

// SAFETY, for every call below: each slice is lent with its own length, what is written is lent by `&mut` and so overlaps
// nothing else, and no export keeps a pointer.

#[inline]
pub fn read_header(s: &[u8], at: usize) -> (u32, [u64; 6]) {
    values(|out, places| unsafe { raw::mrt_read_header(s.as_ptr(), s.len(), at, out, places) })
}

#[inline]
pub fn frame(s: &[u8], at: usize) -> (u32, [u64; 8]) {
    values(|out, places| unsafe { raw::mrt_frame(s.as_ptr(), s.len(), at, out, places) })
}

#[inline]
pub fn judge(s: &[u8], at: usize) -> (u32, [u64; 9]) {
    values(|out, places| unsafe { raw::mrt_judge(s.as_ptr(), s.len(), at, out, places) })
}

#[inline]
pub fn candidate(s: &[u8], at: usize) -> (u32, [u64; 3]) {
    values(|out, places| unsafe { raw::mrt_candidate(s.as_ptr(), s.len(), at, out, places) })
}

#[inline]
pub fn check_body(body: &[u8], kind: u16, subtype: u16, stored: u32) -> u32 {
    unsafe { raw::mrt_check_body(body.as_ptr(), body.len(), kind, subtype, stored) }
}

#[inline]
pub fn write_header(out: &mut [u8], timestamp: u32, kind: u16, subtype: u16, stored: u32, micros: u32) -> Written {
    unsafe { raw::mrt_write_header(out.as_mut_ptr(), out.len(), timestamp, kind, subtype, stored, micros) }
}

/// `out` keeps what it had where the walk answers fewer values.
#[inline]
pub fn next(s: &[u8], walk: &mut [u64; 2], window: usize, asked: u8, out: &mut [u64; 10]) -> u32 {
    unsafe { raw::mrt_next(s.as_ptr(), s.len(), walk.as_mut_ptr(), 2, window, asked, out.as_mut_ptr(), 10) }
}

/// Rows that no record is handed out for keep what they had.
#[inline]
pub fn records(s: &[u8], walk: &mut [u64; 2], rows: &mut [[u64; 10]]) -> Handed {
    let out = rows.as_flattened_mut();
    unsafe { raw::mrt_records(s.as_ptr(), s.len(), walk.as_mut_ptr(), 2, out.as_mut_ptr(), out.len()) }
}

#[inline]
pub fn check_peers(body: &[u8]) -> (u32, [u64; 6]) {
    values(|out, places| unsafe { raw::mrt_check_peers(body.as_ptr(), body.len(), out, places) })
}

#[inline]
pub fn load_peers(body: &[u8], slots: &mut [Peer]) -> u32 {
    unsafe { raw::mrt_load_peers(body.as_ptr(), body.len(), slots.as_mut_ptr(), slots.len()) }
}

/// Bit value 1 of `kind` says the family.
#[inline]
pub fn find_peer(slots: &[Peer], count: usize, kind: u8, address: &[u8]) -> Found {
    unsafe { raw::mrt_find_peer(slots.as_ptr(), slots.len(), count, kind, address.as_ptr(), address.len()) }
}

#[inline]
pub fn add_peer(slots: &mut [Peer], count: usize, kind: u8, id: u32, address: &[u8], asn: u32) -> Found {
    let (lent, places) = (slots.as_mut_ptr(), slots.len());
    unsafe { raw::mrt_add_peer(lent, places, count, kind, id, address.as_ptr(), address.len(), asn) }
}

#[inline]
pub fn write_peers(out: &mut [u8], collector: u32, view: &[u8], slots: &[Peer], count: usize) -> Written {
    let (lent, places) = (slots.as_ptr(), slots.len());
    unsafe {
        raw::mrt_write_peers(out.as_mut_ptr(), out.len(), collector, view.as_ptr(), view.len(), lent, places, count)
    }
}

#[inline]
pub fn read_rib(body: &[u8], subtype: u16, prefix: &mut [u8; 16]) -> (u32, [u64; 5]) {
    values(|out, places| unsafe {
        raw::mrt_read_rib(body.as_ptr(), body.len(), subtype, out, places, prefix.as_mut_ptr(), 16)
    })
}

#[inline]
pub fn rib_entry(body: &[u8], subtype: u16, i: usize) -> (u32, [u64; 5]) {
    values(|out, places| unsafe { raw::mrt_rib_entry(body.as_ptr(), body.len(), subtype, i, out, places) })
}

#[inline]
pub fn rib_first(body: &[u8], subtype: u16) -> (u32, [u64; 2]) {
    values(|out, places| unsafe { raw::mrt_rib_first(body.as_ptr(), body.len(), subtype, out, places) })
}

#[inline]
pub fn rib_next(body: &[u8], subtype: u16, at: usize, left: u16) -> (u32, [u64; 8]) {
    values(|out, places| unsafe { raw::mrt_rib_next(body.as_ptr(), body.len(), subtype, at, left, out, places) })
}

/// Rows that no entry is handed out for keep what they had.
#[inline]
pub fn rib_entries(body: &[u8], subtype: u16, cursor: &mut [u64; 2], rows: &mut [[u64; 5]]) -> Handed {
    let out = rows.as_flattened_mut();
    let (cursor, places) = (cursor.as_mut_ptr(), cursor.len());
    unsafe { raw::mrt_rib_entries(body.as_ptr(), body.len(), subtype, cursor, places, out.as_mut_ptr(), out.len()) }
}

#[inline]
pub fn age(timestamp: u32, originated: u32) -> i64 {
    unsafe { raw::mrt_age(timestamp, originated) }
}

#[inline]
pub fn begin_rib(out: &mut [u8], subtype: u16, sequence: u32, bits: u8, prefix: &[u8]) -> Written {
    let room = out.len();
    unsafe { raw::mrt_begin_rib(out.as_mut_ptr(), room, subtype, sequence, bits, prefix.as_ptr(), prefix.len()) }
}

#[inline]
pub fn add_entry(out: &mut [u8], len: usize, subtype: u16, e: &NewEntry) -> Written {
    let (lent, room) = (out.as_mut_ptr(), out.len());
    let (attributes, m) = (e.attributes.as_ptr(), e.attributes.len());
    unsafe { raw::mrt_add_entry(lent, room, len, subtype, e.peer_index, e.originated, e.path, attributes, m) }
}

#[inline]
pub fn open_rib(body: &[u8], subtype: u16) -> (u32, [u64; 3]) {
    values(|out, places| unsafe { raw::mrt_open_rib(body.as_ptr(), body.len(), subtype, out, places) })
}

#[inline]
pub fn push_entry(out: &mut [u8], subtype: u16, builder: &mut [u64; 3], e: &NewEntry) -> u32 {
    let (lent, room, places) = (out.as_mut_ptr(), out.len(), builder.as_mut_ptr());
    let (attributes, m) = (e.attributes.as_ptr(), e.attributes.len());
    unsafe { raw::mrt_push_entry(lent, room, subtype, places, 3, e.peer_index, e.originated, e.path, attributes, m) }
}

/// Five values are a row, its attributes a part of `attributes`.
#[inline]
pub fn push_entries(out: &mut [u8], subtype: u16, builder: &mut [u64; 3], rows: &[u64], attributes: &[u8]) -> Handed {
    let (lent, room, places) = (out.as_mut_ptr(), out.len(), builder.as_mut_ptr());
    let (from, m) = (attributes.as_ptr(), attributes.len());
    unsafe { raw::mrt_push_entries(lent, room, subtype, places, 3, rows.as_ptr(), rows.len(), from, m) }
}

#[inline]
pub fn read_table_dump(body: &[u8], subtype: u16, prefix: &mut [u8; 16], peer: &mut [u8; 16]) -> (u32, [u64; 8]) {
    let (prefix, peer) = (prefix.as_mut_ptr(), peer.as_mut_ptr());
    values(|out, places| unsafe {
        raw::mrt_read_table_dump(body.as_ptr(), body.len(), subtype, out, places, prefix, 16, peer, 16)
    })
}

#[inline]
pub fn write_table_dump(out: &mut [u8], dump: &NewDump) -> Written {
    let (lent, room, route) = (out.as_mut_ptr(), out.len(), &dump.route);
    let (prefix, peer) = (route.prefix.as_ptr(), route.peer.as_ptr());
    let (attributes, m) = (dump.attributes.as_ptr(), dump.attributes.len());
    unsafe {
        raw::mrt_write_table_dump(
            lent,
            room,
            dump.subtype,
            route.view,
            route.sequence,
            prefix,
            16,
            route.bits,
            route.status,
            route.originated,
            peer,
            16,
            route.asn,
            attributes,
            m,
        )
    }
}

/// Four counters, which are rewritten, and three values.
#[inline]
pub fn missing(body: &[u8], kind: u16, subtype: u16, counters: &mut [u64], out: &mut [u64]) -> u32 {
    let (lent, places) = (counters.as_mut_ptr(), counters.len());
    unsafe { raw::mrt_missing(body.as_ptr(), body.len(), kind, subtype, lent, places, out.as_mut_ptr(), out.len()) }
}
