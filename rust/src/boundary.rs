//! The calls of `libmrt.a`, and each of them as a safe function. All `unsafe` of the crate stands here.
//!
//! What the calls ask of their caller is in `include/mrt.h`: a slice comes as its own pointer and length, memory that is
//! written is aligned and overlaps no other that is lent, and nothing else is asked. Rust's slices and borrows have all of
//! that, empty ones too. No call keeps a pointer. `tests/boundary.rs` holds the declarations to the library's source.

use crate::{Entry, NewTableDump, Peer, Refusal};

/// The library is for processors of 64 bits, so no offset that it answers is cut where it becomes a `usize`.
const _: () = assert!(usize::BITS == 64);

/// What a writer answers: how many octets, 0 where refused.
#[repr(C)]
struct Written {
    octets: u64,
    refusal: u32,
}

/// What a call for many rows answers: how many, 0 where refused.
#[repr(C)]
struct Handed {
    count: u64,
    refusal: u32,
}

/// What a lookup answers: an id, 0 where refused.
#[repr(C)]
struct Found {
    refusal: u32,
    id: u32,
}

#[expect(dead_code, reason = "entries are asked for many at once; mrt_rib_next stands here so that all calls do")]
unsafe extern "C" {
    fn mrt_read_header(s: *const u8, s_len: usize, at: usize, out: *mut u64, out_len: usize) -> u32;
    fn mrt_frame(s: *const u8, s_len: usize, at: usize, out: *mut u64, out_len: usize) -> u32;
    fn mrt_judge(s: *const u8, s_len: usize, at: usize, out: *mut u64, out_len: usize) -> u32;
    fn mrt_candidate(s: *const u8, s_len: usize, at: usize, out: *mut u64, out_len: usize) -> u32;
    fn mrt_check_body(body: *const u8, body_len: usize, kind: u16, subtype: u16, stored: u32) -> u32;
    fn mrt_write_header(
        out: *mut u8,
        out_len: usize,
        timestamp: u32,
        kind: u16,
        subtype: u16,
        stored: u32,
        micros: u32,
    ) -> Written;
    fn mrt_next(
        s: *const u8,
        s_len: usize,
        walk: *mut u64,
        walk_len: usize,
        window: usize,
        asked: u8,
        out: *mut u64,
        out_len: usize,
    ) -> u32;
    fn mrt_records(
        s: *const u8,
        s_len: usize,
        walk: *mut u64,
        walk_len: usize,
        out: *mut u64,
        out_len: usize,
    ) -> Handed;
    fn mrt_missing(
        body: *const u8,
        body_len: usize,
        kind: u16,
        subtype: u16,
        counters: *mut u64,
        counters_len: usize,
        out: *mut u64,
        out_len: usize,
    ) -> u32;
    fn mrt_check_peers(body: *const u8, body_len: usize, out: *mut u64, out_len: usize) -> u32;
    fn mrt_load_peers(body: *const u8, body_len: usize, slots: *mut Peer, slots_len: usize) -> u32;
    fn mrt_find_peer(
        slots: *const Peer,
        slots_len: usize,
        count: usize,
        kind: u8,
        addr: *const u8,
        addr_len: usize,
    ) -> Found;
    fn mrt_add_peer(
        slots: *mut Peer,
        slots_len: usize,
        count: usize,
        kind: u8,
        id: u32,
        addr: *const u8,
        addr_len: usize,
        asn: u32,
    ) -> Found;
    fn mrt_write_peers(
        out: *mut u8,
        out_len: usize,
        collector: u32,
        view: *const u8,
        view_len: usize,
        slots: *const Peer,
        slots_len: usize,
        count: usize,
    ) -> Written;
    fn mrt_read_rib(
        body: *const u8,
        body_len: usize,
        subtype: u16,
        out: *mut u64,
        out_len: usize,
        prefix: *mut u8,
        prefix_len: usize,
    ) -> u32;
    fn mrt_rib_entry(body: *const u8, body_len: usize, subtype: u16, i: usize, out: *mut u64, out_len: usize) -> u32;
    fn mrt_rib_first(body: *const u8, body_len: usize, subtype: u16, out: *mut u64, out_len: usize) -> u32;
    fn mrt_rib_next(
        body: *const u8,
        body_len: usize,
        subtype: u16,
        at: usize,
        left: u16,
        out: *mut u64,
        out_len: usize,
    ) -> u32;
    fn mrt_rib_entries(
        body: *const u8,
        body_len: usize,
        subtype: u16,
        cursor: *mut u64,
        cursor_len: usize,
        out: *mut u64,
        out_len: usize,
    ) -> Handed;
    fn mrt_age(timestamp: u32, originated: u32) -> i64;
    fn mrt_begin_rib(
        out: *mut u8,
        out_len: usize,
        subtype: u16,
        sequence: u32,
        bits: u8,
        prefix: *const u8,
        prefix_len: usize,
    ) -> Written;
    fn mrt_add_entry(
        out: *mut u8,
        out_len: usize,
        len: usize,
        subtype: u16,
        peer: u16,
        originated: u32,
        path: u32,
        attributes: *const u8,
        attributes_len: usize,
    ) -> Written;
    fn mrt_open_rib(body: *const u8, body_len: usize, subtype: u16, out: *mut u64, out_len: usize) -> u32;
    fn mrt_push_entry(
        out: *mut u8,
        out_len: usize,
        subtype: u16,
        builder: *mut u64,
        builder_len: usize,
        peer: u16,
        originated: u32,
        path: u32,
        attributes: *const u8,
        attributes_len: usize,
    ) -> u32;
    fn mrt_push_entries(
        out: *mut u8,
        out_len: usize,
        subtype: u16,
        builder: *mut u64,
        builder_len: usize,
        rows: *const u64,
        rows_len: usize,
        attributes: *const u8,
        attributes_len: usize,
    ) -> Handed;
    fn mrt_read_table_dump(
        body: *const u8,
        body_len: usize,
        subtype: u16,
        out: *mut u64,
        out_len: usize,
        prefix: *mut u8,
        prefix_len: usize,
        peer: *mut u8,
        peer_len: usize,
    ) -> u32;
    fn mrt_write_table_dump(
        out: *mut u8,
        out_len: usize,
        subtype: u16,
        view: u16,
        sequence: u16,
        prefix: *const u8,
        prefix_len: usize,
        bits: u8,
        status: u8,
        originated: u32,
        peer: *const u8,
        peer_len: usize,
        asn: u32,
        attributes: *const u8,
        attributes_len: usize,
    ) -> Written;
}

/// The values that a call leaves in its places, or its refusal. There are places for all, so 9 for want of them never comes.
fn values<const N: usize>(call: impl FnOnce(&mut [u64; N]) -> u32) -> Result<[u64; N], Refusal> {
    let mut out = [0; N];
    Refusal::judge(call(&mut out))?;
    Ok(out)
}

fn written(answer: Written) -> Result<usize, Refusal> {
    Refusal::judge(answer.refusal)?;
    Ok(answer.octets as usize)
}

/// An id is below a count of at most 65,535, so it has 16 bits.
fn found(answer: Found) -> Result<u16, Refusal> {
    Refusal::judge(answer.refusal)?;
    Ok(answer.id as u16)
}

/// Timestamp, type, subtype, wire length, stored length, microseconds.
pub(crate) fn read_header(s: &[u8], at: usize) -> Result<[u64; 6], Refusal> {
    // SAFETY: each slice is lent with its own length.
    values(|out| unsafe { mrt_read_header(s.as_ptr(), s.len(), at, out.as_mut_ptr(), out.len()) })
}

/// The values of the header, where the body starts, where it ends.
pub(crate) fn frame(s: &[u8], at: usize) -> Result<[u64; 8], Refusal> {
    // SAFETY: each slice is lent with its own length.
    values(|out| unsafe { mrt_frame(s.as_ptr(), s.len(), at, out.as_mut_ptr(), out.len()) })
}

/// Where the record starts, then the values of the frame.
pub(crate) fn judge(s: &[u8], at: usize) -> Result<[u64; 9], Refusal> {
    // SAFETY: each slice is lent with its own length.
    values(|out| unsafe { mrt_judge(s.as_ptr(), s.len(), at, out.as_mut_ptr(), out.len()) })
}

/// 1, the evidence, the end; or zeros.
pub(crate) fn candidate(s: &[u8], at: usize) -> Result<[u64; 3], Refusal> {
    // SAFETY: each slice is lent with its own length.
    values(|out| unsafe { mrt_candidate(s.as_ptr(), s.len(), at, out.as_mut_ptr(), out.len()) })
}

pub(crate) fn check_body(body: &[u8], kind: u16, subtype: u16, stored: u32) -> Result<(), Refusal> {
    // SAFETY: the slice is lent with its own length.
    Refusal::judge(unsafe { mrt_check_body(body.as_ptr(), body.len(), kind, subtype, stored) })
}

pub(crate) fn write_header(
    out: &mut [u8],
    timestamp: u32,
    kind: u16,
    subtype: u16,
    stored: u32,
    micros: u32,
) -> Result<usize, Refusal> {
    // SAFETY: the slice is lent with its own length.
    written(unsafe { mrt_write_header(out.as_mut_ptr(), out.len(), timestamp, kind, subtype, stored, micros) })
}

/// The answer's kind and its values: a refusal 11 has them too, and any other leaves zeros.
pub(crate) fn next(s: &[u8], walk: &mut [u64; 2], window: usize, asked: u8) -> [u64; 10] {
    let mut out = [0; 10];
    // SAFETY: each slice is lent with its own length, and the two that are written are borrowed apart.
    unsafe {
        mrt_next(s.as_ptr(), s.len(), walk.as_mut_ptr(), walk.len(), window, asked, out.as_mut_ptr(), out.len());
    }
    out
}

/// How many records stand at the front of the rows, each as `next` has it. Of a walk within its stream none is refused.
pub(crate) fn records(s: &[u8], walk: &mut [u64; 2], rows: &mut [[u64; 10]]) -> usize {
    let out = rows.as_flattened_mut();
    // SAFETY: each slice is lent with its own length, and the two that are written are borrowed apart.
    let handed =
        unsafe { mrt_records(s.as_ptr(), s.len(), walk.as_mut_ptr(), walk.len(), out.as_mut_ptr(), out.len()) };
    handed.count as usize
}

/// 1, how many rows are missing, 1 for a repeat; or zeros. Counters that this call alone has written are never refused.
pub(crate) fn missing(body: &[u8], kind: u16, subtype: u16, counters: &mut [u64; 4]) -> [u64; 3] {
    let mut out = [0; 3];
    let (state, state_len) = (counters.as_mut_ptr(), counters.len());
    // SAFETY: each slice is lent with its own length, and the two that are written are borrowed apart.
    unsafe {
        mrt_missing(body.as_ptr(), body.len(), kind, subtype, state, state_len, out.as_mut_ptr(), out.len());
    }
    out
}

/// Collector, where the view name starts, its octets, how many peers, where the first one starts, where the last one ends.
pub(crate) fn check_peers(body: &[u8]) -> Result<[u64; 6], Refusal> {
    // SAFETY: each slice is lent with its own length.
    values(|out| unsafe { mrt_check_peers(body.as_ptr(), body.len(), out.as_mut_ptr(), out.len()) })
}

pub(crate) fn load_peers(body: &[u8], slots: &mut [Peer]) -> Result<(), Refusal> {
    // SAFETY: each slice is lent with its own length, and a `Peer` has the layout of the library's.
    Refusal::judge(unsafe { mrt_load_peers(body.as_ptr(), body.len(), slots.as_mut_ptr(), slots.len()) })
}

pub(crate) fn find_peer(slots: &[Peer], count: usize, kind: u8, addr: &[u8; 16]) -> Result<u16, Refusal> {
    // SAFETY: each slice is lent with its own length, and a `Peer` has the layout of the library's.
    found(unsafe { mrt_find_peer(slots.as_ptr(), slots.len(), count, kind, addr.as_ptr(), addr.len()) })
}

pub(crate) fn add_peer(slots: &mut [Peer], count: usize, peer: &Peer) -> Result<u16, Refusal> {
    let Peer { kind, id, addr, asn } = peer;
    // SAFETY: each slice is lent with its own length, and a `Peer` has the layout of the library's.
    found(unsafe { mrt_add_peer(slots.as_mut_ptr(), slots.len(), count, *kind, *id, addr.as_ptr(), addr.len(), *asn) })
}

pub(crate) fn write_peers(
    out: &mut [u8],
    collector: u32,
    view: &[u8],
    slots: &[Peer],
    count: usize,
) -> Result<usize, Refusal> {
    let (name, name_len) = (view.as_ptr(), view.len());
    // SAFETY: each slice is lent with its own length, and a `Peer` has the layout of the library's.
    written(unsafe {
        mrt_write_peers(out.as_mut_ptr(), out.len(), collector, name, name_len, slots.as_ptr(), slots.len(), count)
    })
}

/// Sequence, prefix bits, declared count, read count, where the entries start; and the prefix.
pub(crate) fn read_rib(body: &[u8], subtype: u16) -> Result<([u64; 5], [u8; 16]), Refusal> {
    let mut prefix = [0; 16];
    let (octets, octets_len) = (prefix.as_mut_ptr(), prefix.len());
    let head = values(|out| {
        let (places, places_len) = (out.as_mut_ptr(), out.len());
        // SAFETY: each slice is lent with its own length, and the two that are written are different arrays.
        unsafe { mrt_read_rib(body.as_ptr(), body.len(), subtype, places, places_len, octets, octets_len) }
    })?;
    Ok((head, prefix))
}

/// Peer index, originated time, path number, where the attributes start, where they end.
pub(crate) fn rib_entry(body: &[u8], subtype: u16, i: usize) -> Result<[u64; 5], Refusal> {
    // SAFETY: each slice is lent with its own length.
    values(|out| unsafe { mrt_rib_entry(body.as_ptr(), body.len(), subtype, i, out.as_mut_ptr(), out.len()) })
}

/// Where the first entry starts, how many there are by the declared count.
pub(crate) fn rib_first(body: &[u8], subtype: u16) -> Result<[u64; 2], Refusal> {
    // SAFETY: each slice is lent with its own length.
    values(|out| unsafe { mrt_rib_first(body.as_ptr(), body.len(), subtype, out.as_mut_ptr(), out.len()) })
}

/// How many entries stand at the front of the rows, each as `rib_entry` has it. Of a subtype that is carried none is refused.
pub(crate) fn rib_entries(body: &[u8], subtype: u16, cursor: &mut [u64; 2], rows: &mut [[u64; 5]]) -> usize {
    let out = rows.as_flattened_mut();
    let (state, state_len) = (cursor.as_mut_ptr(), cursor.len());
    // SAFETY: each slice is lent with its own length, and the two that are written are borrowed apart.
    let handed =
        unsafe { mrt_rib_entries(body.as_ptr(), body.len(), subtype, state, state_len, out.as_mut_ptr(), out.len()) };
    handed.count as usize
}

pub(crate) fn age(timestamp: u32, originated: u32) -> i64 {
    // SAFETY: nothing is lent.
    unsafe { mrt_age(timestamp, originated) }
}

pub(crate) fn begin_rib(
    out: &mut [u8],
    subtype: u16,
    sequence: u32,
    bits: u8,
    prefix: &[u8; 16],
) -> Result<usize, Refusal> {
    // SAFETY: each slice is lent with its own length.
    written(unsafe {
        mrt_begin_rib(out.as_mut_ptr(), out.len(), subtype, sequence, bits, prefix.as_ptr(), prefix.len())
    })
}

pub(crate) fn add_entry(out: &mut [u8], len: usize, subtype: u16, entry: &Entry<'_>) -> Result<usize, Refusal> {
    let Entry { peer, originated, path, attributes } = *entry;
    let (octets, octets_len) = (attributes.as_ptr(), attributes.len());
    // SAFETY: each slice is lent with its own length.
    written(unsafe {
        mrt_add_entry(out.as_mut_ptr(), out.len(), len, subtype, peer, originated, path, octets, octets_len)
    })
}

/// A builder: how long the body is, where its count stands, the count.
pub(crate) fn open_rib(body: &[u8], subtype: u16) -> Result<[u64; 3], Refusal> {
    // SAFETY: each slice is lent with its own length.
    values(|out| unsafe { mrt_open_rib(body.as_ptr(), body.len(), subtype, out.as_mut_ptr(), out.len()) })
}

pub(crate) fn push_entry(
    out: &mut [u8],
    subtype: u16,
    builder: &mut [u64; 3],
    entry: &Entry<'_>,
) -> Result<(), Refusal> {
    let Entry { peer, originated, path, attributes } = *entry;
    let (state, state_len) = (builder.as_mut_ptr(), builder.len());
    let (octets, octets_len) = (attributes.as_ptr(), attributes.len());
    // SAFETY: each slice is lent with its own length, and the two that are written are borrowed apart.
    Refusal::judge(unsafe {
        mrt_push_entry(
            out.as_mut_ptr(),
            out.len(),
            subtype,
            state,
            state_len,
            peer,
            originated,
            path,
            octets,
            octets_len,
        )
    })
}

/// How many rows went in, each as `rib_entry` has it, its attributes a part of `attributes`: those before the first that
/// `push_entry` refuses. Of a builder that stands the call refuses none.
pub(crate) fn push_entries(
    out: &mut [u8],
    subtype: u16,
    builder: &mut [u64; 3],
    rows: &[[u64; 5]],
    attributes: &[u8],
) -> usize {
    let rows = rows.as_flattened();
    let (state, state_len) = (builder.as_mut_ptr(), builder.len());
    let (octets, octets_len) = (attributes.as_ptr(), attributes.len());
    // SAFETY: each slice is lent with its own length, and the two that are written are borrowed apart.
    let handed = unsafe {
        mrt_push_entries(
            out.as_mut_ptr(),
            out.len(),
            subtype,
            state,
            state_len,
            rows.as_ptr(),
            rows.len(),
            octets,
            octets_len,
        )
    };
    handed.count as usize
}

/// View, sequence, prefix bits, status, originated time, AS, where the attributes start, where they end; and the prefix and the
/// peer's address.
pub(crate) fn read_table_dump(body: &[u8], subtype: u16) -> Result<([u64; 8], [[u8; 16]; 2]), Refusal> {
    let (mut prefix, mut peer) = ([0; 16], [0; 16]);
    let (octets, octets_len) = (prefix.as_mut_ptr(), prefix.len());
    let (address, address_len) = (peer.as_mut_ptr(), peer.len());
    let fields = values(|out| {
        let (places, places_len) = (out.as_mut_ptr(), out.len());
        // SAFETY: each slice is lent with its own length, and the three that are written are different arrays.
        unsafe {
            mrt_read_table_dump(
                body.as_ptr(),
                body.len(),
                subtype,
                places,
                places_len,
                octets,
                octets_len,
                address,
                address_len,
            )
        }
    })?;
    Ok((fields, [prefix, peer]))
}

pub(crate) fn write_table_dump(out: &mut [u8], dump: &NewTableDump<'_>) -> Result<usize, Refusal> {
    let NewTableDump { subtype, view, sequence, prefix, status, originated, peer, asn, attributes } = *dump;
    // SAFETY: each slice is lent with its own length.
    written(unsafe {
        mrt_write_table_dump(
            out.as_mut_ptr(),
            out.len(),
            subtype,
            view,
            sequence,
            prefix.octets.as_ptr(),
            prefix.octets.len(),
            prefix.bits,
            status,
            originated,
            peer.as_ptr(),
            peer.len(),
            asn,
            attributes.as_ptr(),
            attributes.len(),
        )
    })
}
