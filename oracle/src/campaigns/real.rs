//! Real files: whole, in pieces, and damaged.

use super::{missing, streams, Put, ASKED};
use crate::answers::{Event, NewDump};
use crate::damage;
use crate::question::Question;
use crate::random::Random;
use crate::reading;
use crate::subject::{Reading, Subject};
use std::path::{Path, PathBuf};
use std::{env, fs, io};

/// The folder named by MRT_STREAMS, or the folder `shared` beside the repository.
pub fn folder() -> PathBuf {
    let beside = || Path::new(env!("CARGO_MANIFEST_DIR")).join("../../shared/streams");
    env::var_os("MRT_STREAMS").map_or_else(beside, PathBuf::from)
}

/// The names and octets of all `.mrt` files of a folder, by name.
pub fn files(folder: &Path) -> io::Result<Vec<(String, Vec<u8>)>> {
    let mut files = Vec::new();
    for entry in fs::read_dir(folder)? {
        let path = entry?.path();
        if path.extension().is_some_and(|ending| ending == "mrt") {
            let name = path.file_name().unwrap_or_default().to_string_lossy().into_owned();
            files.push((name, fs::read(&path)?));
        }
    }
    files.sort();
    Ok(files)
}

pub fn run(put: Put, random: &mut Random, files: &[(String, Vec<u8>)]) {
    for (_, file) in files {
        whole(put, file);
        for _ in 0..copies(file.len()) {
            damaged(put, random, file);
        }
        for _ in 0..300 {
            piece(put, random, file);
        }
        table_dumps(put, file);
    }
}

/// Fewer damaged copies of long files.
fn copies(length: usize) -> usize {
    (20_000_000 / (length + 1)).clamp(2, 60)
}

fn whole(put: Put, stream: &[u8]) {
    for asked in ASKED {
        for window in [0, 100, 1 << 20, usize::MAX] {
            put(&Question::Walk { stream, window, asked });
        }
    }
    put(&Question::Causes { stream, window: 1 << 20, asked: 3 });
    missing::each_record(put, stream, 3);
}

fn damaged(put: Put, random: &mut Random, file: &[u8]) {
    let mut stream = file.to_vec();
    for _ in 0..1 + random.below(6) {
        damage::once(random, &mut stream);
    }
    for asked in [1, random.pick(&ASKED)] {
        put(&Question::Walk { stream: &stream, window: random.pick(&[100, 1 << 20, usize::MAX]), asked });
    }
    put(&Question::Causes { stream: &stream, window: 1 << 20, asked: 3 });
    missing::each_record(put, &stream, 3);
}

/// A piece from anywhere, so that most begin inside a record, with some damage.
fn piece(put: Put, random: &mut Random, file: &[u8]) {
    let start = random.below(file.len());
    let length = random.pick(&[100, 1_000, 20_000]).min(file.len() - start);
    let mut stream = file[start..start + length].to_vec();
    for _ in 0..random.below(3) {
        damage::once(random, &mut stream);
    }
    streams::walks(put, random, &stream);
}

/// The subtype and body of each type 12 record that a walk hands out.
pub fn table_dump_bodies(file: &[u8]) -> Vec<(u16, &[u8])> {
    let events = Reading.walk(file, 1 << 20, 3).unwrap_or_default();
    let bodies = events.into_iter().filter_map(|event| match event {
        Event::Record { start, end, kind: 12, subtype } => Some((subtype, &file[start + 12..end])),
        _ => None,
    });
    bodies.collect()
}

/// Each type 12 body read, and written as it was read.
fn table_dumps(put: Put, file: &[u8]) {
    for (subtype, body) in table_dump_bodies(file) {
        put(&Question::TableDumpRead { subtype, body });
        let read = reading::read_table_dump(subtype, body).value;
        let attributes = &body[read.attributes_at..read.attributes_end];
        let dump = NewDump { subtype, route: read.route, attributes };
        put(&Question::TableDumpWrite { room: &vec![0xaa; body.len()], dump });
    }
}
