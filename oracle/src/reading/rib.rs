//! RIB bodies of subtypes 2 to 5 and 8 to 11 (RFC 6396, 4.3.2 and 4.3.4; RFC 8050, 4.1; 01, RIB bodies).

use super::octets::{be16, be32, Pen};
use crate::answers::{Answer, Builder, NewEntry, NewRows, RibEntry, RibStep, RibTable, Rowed};

/// What a subtype decides: the most prefix bits, and whether entries have a path number.
#[derive(Clone, Copy)]
struct Form {
    most_bits: u8,
    has_path: bool,
}

fn form(subtype: u16) -> Option<Form> {
    let (most_bits, has_path) = match subtype {
        2 | 3 => (32, false),
        4 | 5 => (128, false),
        8 | 9 => (32, true),
        10 | 11 => (128, true),
        _ => return None,
    };
    Some(Form { most_bits, has_path })
}

/// What stands before the entries, and where those start.
struct Head {
    sequence: u32,
    bits: u8,
    prefix: [u8; 16],
    declared: u16,
    entries: usize,
}

/// An entry, where its attributes start, and where it ends.
struct Entry {
    peer_index: u16,
    originated: u32,
    path: u32,
    attributes: usize,
    end: usize,
}

/// The fewest octets that hold a number of bits.
fn octets_of(bits: u8) -> usize {
    usize::from(bits).div_ceil(8)
}

/// The first `bits` bits of a prefix, and zeros after them.
fn cleared(prefix: &[u8], bits: u8) -> [u8; 16] {
    let mut clean = [0; 16];
    let count = octets_of(bits);
    clean[..count].copy_from_slice(&prefix[..count]);
    let over = 8 * count - usize::from(bits);
    if over > 0 {
        clean[count - 1] &= 255 << over;
    }
    clean
}

fn head(form: Form, body: &[u8]) -> Option<Head> {
    let bits = *body.get(4)?;
    let count_at = 5 + octets_of(bits);
    if bits > form.most_bits || body.len() < count_at + 2 {
        return None;
    }
    Some(Head {
        sequence: be32(body, 0),
        bits,
        prefix: cleared(&body[5..count_at], bits),
        declared: be16(body, count_at),
        entries: count_at + 2,
    })
}

/// Whether a body of this subtype has a readable head. Nothing where the subtype is not carried.
pub fn has_readable_head(subtype: u16, body: &[u8]) -> Option<bool> {
    Some(head(form(subtype)?, body).is_some())
}

/// The octets of an entry before its attributes.
fn entry_fixed(form: Form) -> usize {
    if form.has_path {
        12
    } else {
        8
    }
}

/// The entry at an offset, where it fits.
fn entry_at(form: Form, body: &[u8], at: usize) -> Option<Entry> {
    let attributes = at + entry_fixed(form);
    if body.len() < attributes {
        return None;
    }
    let length = usize::from(be16(body, attributes - 2));
    if body.len() - attributes < length {
        return None;
    }
    Some(Entry {
        peer_index: be16(body, at),
        originated: be32(body, at + 2),
        path: if form.has_path { be32(body, at + 6) } else { 0 },
        attributes,
        end: attributes + length,
    })
}

/// Goes over the declared entries up to the first that does not fit; answers how many fit and where the last ends.
fn entries(form: Form, body: &[u8], head: &Head) -> (u16, usize) {
    let mut at = head.entries;
    for read in 0..head.declared {
        match entry_at(form, body, at) {
            Some(entry) => at = entry.end,
            None => return (read, at),
        }
    }
    (head.declared, at)
}

/// The head, and how many entries fit: 6, then 7.
pub fn read_rib(subtype: u16, body: &[u8]) -> Answer<RibTable> {
    let table = form(subtype).ok_or(6).and_then(|form| {
        let head = head(form, body).ok_or(7)?;
        let (read, _) = entries(form, body, &head);
        Ok(RibTable { sequence: head.sequence, bits: head.bits, prefix: head.prefix, declared: head.declared, read })
    });
    table.into()
}

/// Entry `index` of a record with this timestamp: 6, then 7, then 8 where it was not read.
pub fn read_entry(subtype: u16, body: &[u8], timestamp: u32, index: usize) -> Answer<RibEntry> {
    let entry = form(subtype).ok_or(6).and_then(|form| {
        let head = head(form, body).ok_or(7)?;
        let entry = nth(form, body, &head, index).ok_or(8)?;
        let age = i64::from(timestamp) - i64::from(entry.originated);
        Ok(RibEntry { age, ..fields(&entry) })
    });
    entry.into()
}

fn fields(entry: &Entry) -> RibEntry {
    RibEntry {
        peer_index: entry.peer_index,
        originated: entry.originated,
        path: entry.path,
        attributes_at: entry.attributes,
        attributes_len: entry.end - entry.attributes,
        age: 0,
    }
}

/// The entry at a cursor, and the cursor after it: 8 beyond the body, then 6. Nothing is handed out where none is left or the
/// next one does not fit.
pub fn next_entry(subtype: u16, body: &[u8], at: usize, left: u16) -> Answer<RibStep> {
    stepped(subtype, body, at, left).into()
}

fn stepped(subtype: u16, body: &[u8], at: usize, left: u16) -> Result<RibStep, u8> {
    if at > body.len() {
        return Err(8);
    }
    let form = form(subtype).ok_or(6)?;
    Ok(match (left, entry_at(form, body, at)) {
        (1.., Some(entry)) => RibStep { handed: true, entry: fields(&entry), at: entry.end, left: left - 1 },
        _ => RibStep::default(),
    })
}

fn nth(form: Form, body: &[u8], head: &Head, index: usize) -> Option<Entry> {
    if index >= usize::from(head.declared) {
        return None;
    }
    let mut entry = entry_at(form, body, head.entries)?;
    for _ in 0..index {
        entry = entry_at(form, body, entry.end)?;
    }
    Some(entry)
}

/// Begins a body with no entry at the front of the output and answers its length: 6, then 10, then 9.
pub fn begin_rib(out: &mut [u8], subtype: u16, sequence: u32, bits: u8, prefix: &[u8; 16]) -> Answer<usize> {
    form(subtype).ok_or(6).and_then(|form| put_head(out, form, sequence, bits, prefix)).into()
}

fn put_head(out: &mut [u8], form: Form, sequence: u32, bits: u8, prefix: &[u8; 16]) -> Result<usize, u8> {
    if bits > form.most_bits {
        return Err(10);
    }
    if out.len() < 7 + octets_of(bits) {
        return Err(9);
    }
    let mut pen = Pen::new(out);
    pen.put(&sequence.to_be_bytes());
    pen.put(&[bits]);
    pen.put(&cleared(prefix, bits)[..octets_of(bits)]);
    pen.put(&[0, 0]);
    Ok(pen.written())
}

/// Adds an entry to the body in the first `length` octets of a buffer and answers the new length: 8, 6, 7, 10, 9.
pub fn add_entry(buffer: &mut [u8], length: usize, subtype: u16, entry: &NewEntry) -> Answer<usize> {
    put_entry(buffer, length, subtype, entry).into()
}

fn put_entry(buffer: &mut [u8], length: usize, subtype: u16, entry: &NewEntry) -> Result<usize, u8> {
    let body = buffer.get(..length).ok_or(8)?;
    let form = form(subtype).ok_or(6)?;
    let head = whole_head(form, body).ok_or(7)?;
    put_after(buffer, length, form, &head, entry)
}

/// Adds an entry where a builder stands and answers the builder after it: 8 for a length beyond the output or a count that no
/// body has, 6, 7 where the head cannot be read or the builder's count is not the body's, 10, 9.
pub fn push_entry(buffer: &mut [u8], subtype: u16, builder: Builder, entry: &NewEntry) -> Answer<Builder> {
    pushed(buffer, subtype, builder, entry).into()
}

fn pushed(buffer: &mut [u8], subtype: u16, builder: Builder, entry: &NewEntry) -> Result<Builder, u8> {
    let (form, head) = standing(buffer, subtype, builder)?;
    let length = put_after(buffer, builder.length, form, &head, entry)?;
    Ok(Builder { length, count: builder.count + 1, ..builder })
}

/// The head of the body at whose end a builder stands: 8, 6, 7.
fn standing(buffer: &[u8], subtype: u16, builder: Builder) -> Result<(Form, Head), u8> {
    let Builder { length, count_at, count } = builder;
    let body = buffer.get(..length).ok_or(8)?;
    if count > 65_535 {
        return Err(8);
    }
    let form = form(subtype).ok_or(6)?;
    let head = head(form, body).ok_or(7)?;
    if (count_at, count) != (head.entries - 2, head.declared.into()) {
        return Err(7);
    }
    Ok((form, head))
}

/// Adds the entries of rows where a builder stands, each as `push_entry` does, up to the first that it refuses or cannot be
/// asked about: 8 for values that are no whole number of rows, and 8, 6 and 7 for no builder of what stands there.
pub fn push_rows(buffer: &mut [u8], subtype: u16, builder: Builder, rows: &NewRows) -> Answer<Rowed> {
    let checked = match rows.values.len() % 5 {
        0 => standing(buffer, subtype, builder).map(|_| Rowed { rows: 0, builder }),
        _ => Err(8),
    };
    let pushed = checked.map(|mut rowed| {
        for row in rows.values.chunks_exact(5) {
            let entry = entry_of(row, rows.attributes);
            let Some(Ok(builder)) = entry.map(|entry| pushed(buffer, subtype, rowed.builder, &entry)) else {
                break;
            };
            rowed = Rowed { rows: rowed.rows + 1, builder };
        }
        rowed
    });
    pushed.into()
}

/// The entry of a row's five values, where each has a number of its size and the attributes lie in the buffer.
fn entry_of<'a>(row: &[u64], buffer: &'a [u8]) -> Option<NewEntry<'a>> {
    let place = |i: usize| usize::try_from(row[i]).ok();
    Some(NewEntry {
        peer_index: row[0].try_into().ok()?,
        originated: row[1].try_into().ok()?,
        path: row[2].try_into().ok()?,
        attributes: buffer.get(place(3)?..place(4)?)?,
    })
}

/// The entry after the first `length` octets, and the count of their head raised: 10, then 9.
fn put_after(buffer: &mut [u8], length: usize, form: Form, head: &Head, entry: &NewEntry) -> Result<usize, u8> {
    let count = head.declared.checked_add(1).ok_or(10)?;
    let attributes_len = u16::try_from(entry.attributes.len()).map_err(|_| 10)?;
    if entry.path != 0 && !form.has_path {
        return Err(10);
    }
    let (body, room) = buffer.split_at_mut(length);
    if room.len() < entry_fixed(form) + entry.attributes.len() {
        return Err(9);
    }
    let mut pen = Pen::new(room);
    pen.put(&entry.peer_index.to_be_bytes());
    pen.put(&entry.originated.to_be_bytes());
    if form.has_path {
        pen.put(&entry.path.to_be_bytes());
    }
    pen.put(&attributes_len.to_be_bytes());
    pen.put(entry.attributes);
    body[head.entries - 2..head.entries].copy_from_slice(&count.to_be_bytes());
    Ok(length + pen.written())
}

/// The head of a body that holds every declared entry and nothing after them.
fn whole_head(form: Form, body: &[u8]) -> Option<Head> {
    let head = head(form, body)?;
    let whole = entries(form, body, &head) == (head.declared, body.len());
    whole.then_some(head)
}
