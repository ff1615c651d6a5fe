//! Completions and market copies, damaged for their readers.

use crate::bits::overwrite;
use crate::case::Case;
use crate::completion::{message_bits, Audience};
use crate::edition::Edition;
use crate::generate::damage::{cut_anywhere, with_surplus_bytes, with_turned_bits};
use crate::rng::Rng;

/// Where a message that has counts has them, and how wide they are: devices, intervals, zones.
pub fn count_places(edition: Edition) -> [(usize, usize); 3] {
    let devices = edition.devices().width;
    let intervals = edition.intervals().width;
    let behind_devices = 4 + 4 + devices;
    [
        (4 + 4, devices),
        (behind_devices, intervals),
        (behind_devices + intervals, edition.zones().width),
    ]
}

/// Damages a message for an audience in one of the ways of numbers 1, 2, 3 and 6, by bits turned at
/// random, or by figures of any value, which are all in range.
pub fn damaged_reading(
    rng: &mut Rng,
    audience: Audience,
    edition: Edition,
    case: &Case,
    message: &[u8],
) -> Vec<u8> {
    let mut bytes = message.to_vec();
    let end = message_bits(audience, edition, case);
    let [_, _, (zones_place, zones_width)] = count_places(edition);
    match rng.below(9) {
        0 => return cut_anywhere(rng, message),
        1 => overwrite(&mut bytes, 0, 4, rng.from_to(0, 15)),
        2 => overwrite(&mut bytes, 4, 4, rng.from_to(0, 15)),
        3 | 4 => {
            let (place, width) = rng.pick(&count_places(edition));
            overwrite(&mut bytes, place, width, rng.from_to(0, (1 << width) - 1));
        }
        5 => {
            let fill = 8 * message.len() - end;
            overwrite(&mut bytes, end, fill, rng.from_to(0, (1 << fill) - 1));
        }
        6 => return with_surplus_bytes(rng, message),
        7 => return with_turned_bits(rng, message),
        _ => {
            for bit in zones_place + zones_width..end {
                overwrite(&mut bytes, bit, 1, rng.from_to(0, 1));
            }
        }
    }
    bytes
}
