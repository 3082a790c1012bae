//! Sources with a few bytes spoilt.

use crate::random::Random;

/// Bytes at which the pass turns.
const TURNING: [u8; 14] = [b':', b' ', b'\n', b';', b'"', b'.', b'\r', b'\t', 0x0B, 0x0C, 0x00, 0x1F, 0x7F, b'A'];

/// Spoils one to three places of a source.
pub fn damage(source: &str, random: &mut Random) -> String {
    let mut bytes = source.as_bytes().to_vec();
    for _ in 0..random.between(1, 3) {
        spoil(&mut bytes, random);
    }
    String::from_utf8(bytes).expect("every byte is ASCII")
}

fn spoil(bytes: &mut Vec<u8>, random: &mut Random) {
    let byte = if random.one_in(3) { random.byte() % 0x80 } else { random.pick(&TURNING) };
    if bytes.is_empty() {
        bytes.push(byte);
        return;
    }
    let place = random.below(bytes.len() as u32) as usize;
    let (next, other) = ((place + 1) % bytes.len(), random.below(bytes.len() as u32) as usize);
    match random.below(8) {
        0..=1 => bytes[place] = byte,
        2 => {
            bytes.remove(place);
        }
        3 => bytes.insert(place, bytes[place]),
        4 => bytes.insert(place, byte),
        5 => bytes.swap(place, next),
        6 => bytes.swap(place, other),
        // Turns upper case to lower and back.
        _ if bytes[place].is_ascii_alphabetic() => bytes[place] ^= 0x20,
        _ => bytes.truncate(place),
    }
}
