//! Bytes that are no packet: packets with one field out of its range. (The program that replays the
//! list cuts packets by itself.)

use crate::answers::folds;
use crate::answers::lines;
use crate::answers::wrong::{WrongNumber, with_a_wrong_number, with_bytes_instead};
use crate::forms::PACKET;
use crate::records;

/// The fields before the key, and the key's first, with the greatest number that each takes.
const BOUNDS: [(&str, u64); 9] = [
    ("time", u64::MAX),
    ("frame octets", u32::MAX as u64),
    ("captured octets", u32::MAX as u64),
    ("ttl", 1 << 8),
    ("tcp flags", 1 << 9),
    ("icmp", 1 << 16),
    ("dscp", 1 << 8),
    ("ecn", 1 << 8),
    ("protocol", 255),
];

/// `y` lines.
pub fn refused() -> Vec<String> {
    let mut list = vec![(vec![], PACKET)];
    for packet in [folds::plainest(), folds::longest()] {
        let fields = records::packet_fields(&packet);
        for (field, most) in BOUNDS {
            let value = u128::from(most) + 1;
            let wrong = WrongNumber { field, most, value };
            list.extend(with_a_wrong_number(&fields, &wrong, PACKET));
            // Not the shortest form of 1.
            list.extend(with_bytes_instead(&fields, field, &[0x81, 0x00], PACKET));
        }
    }
    list.iter()
        .map(|(bytes, answer)| lines::refused_packet(bytes, *answer))
        .collect()
}
