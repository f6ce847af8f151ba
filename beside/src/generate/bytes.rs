//! Damage to a file without regard to its lines and words.

use super::random::Random;

const ODD_BYTES: [u8; 16] = [
    b' ', b'\n', b'-', b'0', b',', b'.', b'/', b'!', b'A', b'{', b'\t', b'\r', 0, 0x7f, 0x80, 0xff,
];

pub fn spoil(file: &mut Vec<u8>, random: &mut Random) {
    if file.is_empty() {
        return file.push(odd(random));
    }
    let place = random.below(file.len());
    match random.below(8) {
        0 => file[place] = odd(random),
        1 => file[place] ^= 1 << random.below(8),
        2 => drop(file.remove(place)),
        3 => file.insert(place, odd(random)),
        4 => file.swap(place, place.saturating_sub(1)),
        5 => file.truncate(place),
        6 => file.push(odd(random)),
        _ => file[place] = random.byte(),
    }
}

fn odd(random: &mut Random) -> u8 {
    random.pick(&ODD_BYTES)
}
