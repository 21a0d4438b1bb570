//! What the sides work on: real records, real records with damage, noise, and octets made to mislead a scan.

use mrt_oracle::answers::{Event, Walk};
use mrt_oracle::campaigns::real;
use mrt_oracle::make;
use mrt_oracle::random::Random;
use mrt_oracle::reading;
use std::process::Command;

pub const MIB: usize = 1 << 20;

/// The records of types 16 and 17 of all files at hand, repeated until there are so many octets.
pub fn updates(octets: usize) -> Result<Vec<u8>, String> {
    of_kinds(&[16, 17], octets, |_| true)
}

/// The same of type 12.
pub fn dumps(octets: usize) -> Result<Vec<u8>, String> {
    of_kinds(&[12], octets, |_| true)
}

/// The same of type 13, with every sixteenth record left out, so that rows are missing.
pub fn tables(octets: usize) -> Result<Vec<u8>, String> {
    of_kinds(&[13], octets, |place| place % 16 != 15)
}

fn of_kinds(kinds: &[u16], octets: usize, kept: impl Fn(usize) -> bool) -> Result<Vec<u8>, String> {
    let folder = real::folder();
    let files = real::files(&folder).map_err(|error| format!("{}: {error}", folder.display()))?;
    let all = files.iter().flat_map(|(_, file)| records(file, kinds)).enumerate();
    let once: Vec<&[u8]> = all.filter(|(place, _)| kept(*place)).map(|(_, record)| record).collect();
    let once = once.concat();
    if once.is_empty() {
        return Err(format!("{} has no file with records of types {kinds:?}", folder.display()));
    }
    Ok(once.repeat(octets.div_ceil(once.len())))
}

fn records<'a>(file: &'a [u8], kinds: &[u16]) -> Vec<&'a [u8]> {
    let mut walk = Walk::default();
    let mut records = Vec::new();
    loop {
        match reading::step(file, &mut walk, MIB, 3) {
            Event::Record { start, end, kind, .. } if kinds.contains(&kind) => records.push(&file[start..end]),
            event if event.is_last() => return records,
            _ => {}
        }
    }
}

/// A file of the folder `big`, which are kept packed by xz.
pub fn big(name: &str) -> Result<Vec<u8>, String> {
    let path = real::folder().join("big").join(name);
    if !path.is_file() {
        return Err(format!("no {}", path.display()));
    }
    let packed = Command::new("xz").arg("-dc").arg(&path).output().map_err(|error| format!("xz: {error}"))?;
    packed.status.success().then_some(packed.stdout).ok_or(format!("xz cannot read {}", path.display()))
}

/// The stream with ten octets left out every 5,000, as a writer tears it that loses what it could not store.
pub fn torn(stream: &[u8]) -> Vec<u8> {
    stream.chunks(5_000).flat_map(|part| &part[..part.len().saturating_sub(10)]).copied().collect()
}

/// Octets in which nothing stands. The first twelve are no header.
pub fn noise(octets: usize) -> Vec<u8> {
    let mut random = Random::new(1);
    let mut noise: Vec<u8> = (0..octets.div_ceil(8)).flat_map(|_| random.number().to_be_bytes()).collect();
    lose(&mut noise);
    noise
}

/// What a full disk leaves of a file.
pub fn zeros(octets: usize) -> Vec<u8> {
    let mut zeros = vec![0; octets];
    lose(&mut zeros);
    zeros
}

/// A header in every eighth octet that may be a candidate's until its body is looked at.
pub fn plausible_starts(octets: usize) -> Vec<u8> {
    let mut stream = PLAUSIBLE.repeat(octets / PLAUSIBLE.len());
    lose(&mut stream);
    stream
}

const PLAUSIBLE: [u8; 8] = [0, 16, 0, 4, 0, 0, 0, 44];

/// Nothing begins at the front, so that the walk's first call is a scan.
fn lose(stream: &mut [u8]) {
    let front = stream.len().min(12);
    stream[..front].fill(255);
}

/// Repeated, a state change at every tenth offset: type 16, subtype 5, the length, and the address family of the one
/// that began ten octets before. The eight octets of type, subtype and length overlap with no others, and each needs a
/// family of its own, so no pattern of state changes is denser.
const fn state_change(length: u8, family: u8) -> [u8; 10] {
    [0, 16, 0, 5, 0, 0, 0, length, 0, family]
}

/// In equal parts: a type in every second octet, a plausible header in every eighth, and in every tenth a state change
/// whose next one is none, since it has 36 octets.
pub fn false_starts(octets: usize) -> Vec<u8> {
    let third = octets / 3;
    let changes = third / 10;
    let mut stream = [0, 16].repeat(third / 2);
    stream.extend(PLAUSIBLE.repeat(third / PLAUSIBLE.len()));
    stream.extend(state_change(24, 1).repeat(changes));
    lose(&mut stream);
    // The last three run past the stream.
    misleads(&stream, changes - 3, 2);
    stream
}

/// Every tenth offset begins a state change of 60 octets, so that the next one stands at its end, and no row of them
/// has the asked number.
pub fn broken_rows(octets: usize, asked: usize) -> Vec<u8> {
    let mut part = state_change(48, 2).repeat(6 * (asked - 1));
    // The family of the last one, and no type.
    part.extend([255, 255, 255, 255, 255, 255, 255, 255, 0, 2].repeat(6));
    let parts = octets / part.len();
    let mut stream = part.repeat(parts);
    lose(&mut stream);
    // The loss takes the first two.
    misleads(&stream, parts * 6 * (asked - 1) - 2, asked);
    stream
}

/// Holds a stream to its claim: so many offsets begin a candidate, and nowhere does the asked number stand in a row.
fn misleads(stream: &[u8], candidates: usize, asked: usize) {
    let standing = (0..stream.len()).filter(|&at| reading::candidate(stream, at).value.stands).count();
    assert_eq!(standing, candidates, "the input has other candidates than it is to have");
    assert!(!reading::scan(stream, 0, stream.len(), asked as u8).found, "a row of {asked} stands in the input");
}

/// Records of type 32, which are not carried, each with the asked number of good records after it. Those are of type 5,
/// the cheapest to judge, so that the try itself is timed.
pub fn refused_rows(octets: usize, asked: usize) -> Vec<u8> {
    let mut part = make::record(32, 0, &[]);
    part.extend(make::record(5, 7, &[0; 12]).repeat(asked));
    part.repeat(octets / part.len())
}
