//! What happens to files: bits turn, pieces go missing, pieces turn up, ends are lost, blocks are zeroed.

use crate::make;
use crate::random::Random;

/// Does one thing to the stream.
pub fn once(random: &mut Random, stream: &mut Vec<u8>) {
    match random.below(6) {
        0 => flip(random, stream),
        1 => cut_out(random, stream),
        2 => put_in(random, stream),
        3 => cut_off(random, stream),
        4 => zero(random, stream),
        _ => overwrite(random, stream),
    }
}

fn flip(random: &mut Random, stream: &mut [u8]) {
    let at = random.below(stream.len());
    if let Some(octet) = stream.get_mut(at) {
        *octet ^= 1 << random.below(8);
    }
}

/// A place in the stream and a length that fits there, short ones more often.
fn piece(random: &mut Random, stream: &[u8]) -> std::ops::Range<usize> {
    let start = random.below(stream.len());
    let most = random.pick(&[2, 20, 200, usize::MAX]).min(stream.len() - start);
    start..start + random.below(most + 1)
}

fn cut_out(random: &mut Random, stream: &mut Vec<u8>) {
    let range = piece(random, stream);
    stream.drain(range);
}

fn put_in(random: &mut Random, stream: &mut Vec<u8>) {
    let new = match random.below(3) {
        0 => {
            let count = random.below(30);
            random.octets(count)
        }
        1 => make::good_record(random),
        _ => stream[piece(random, stream)].to_vec(),
    };
    let at = random.below(stream.len() + 1);
    stream.splice(at..at, new);
}

fn cut_off(random: &mut Random, stream: &mut Vec<u8>) {
    let lost = random.pick(&[1, 4, 12, 40, stream.len()]);
    let kept = stream.len().saturating_sub(random.below(lost + 1));
    stream.truncate(kept);
}

fn zero(random: &mut Random, stream: &mut [u8]) {
    let range = piece(random, stream);
    stream[range].fill(0);
}

/// Writes a good record over a part of another, as a torn file does.
fn overwrite(random: &mut Random, stream: &mut [u8]) {
    let new = make::good_record(random);
    let start = random.below(stream.len());
    let count = new.len().min(stream.len() - start);
    stream[start..start + count].copy_from_slice(&new[..count]);
}
