//! Both sides of each bound, and every pair of refusals that can hold at once, in small numbers: all of these questions
//! that have a form there (`asked.rs`) stand in the lists that the proved program replays.

mod headers;
mod missing;
mod peers;
mod records;
mod ribs;
mod table_dumps;
mod walks;

use super::Put;

pub fn run(put: Put) {
    headers::run(put);
    records::run(put);
    peers::run(put);
    ribs::run(put);
    table_dumps::run(put);
    walks::run(put);
    missing::run(put);
}
