//! What an input begins with.

use super::{Sample, example_packets};
use crate::samples::input::Input;

/// Nine groups of ones, and more to follow.
const NINE: [u8; 9] = [0xFF; 9];

pub fn cases() -> Vec<Sample> {
    let ten = |last: u8| [&NINE[..], &[last, 0]].concat();
    vec![
        Sample::new("empty", []),
        Sample::new("timeout_alone", [0xE8, 0x07]),
        Sample::new("timeout_cut", [0xE8]),
        Sample::new("timeout_cut_before_its_last_byte", NINE),
        Sample::new("timeout_not_shortest", [0x80, 0x00, 0x00]),
        Sample::new("timeout_longer_than_it_needs", [0xE8, 0x87, 0x00, 0x00]),
        Sample::new("timeout_one_above_64_bits", ten(2)),
        Sample::new(
            "timeout_of_eleven_bytes",
            [&[0xFF; 10][..], &[1, 0]].concat(),
        ),
        Sample::new("timeout_largest", behind(&ten(1))),
        Sample::new("resolution_2", [0xE8, 0x07, 0x02]),
        Sample::new("resolution_not_shortest", [0xE8, 0x07, 0x80, 0x00]),
        Sample::new(
            "resolution_1",
            Input::new(1000, 1).packets(&example_packets()),
        ),
        Sample::new("no_packets", Input::new(1000, 0)),
    ]
}

/// The packets of the example behind other settings.
fn behind(settings: &[u8]) -> Vec<u8> {
    let packets: Vec<u8> = Input::new(0, 0).packets(&example_packets()).into();
    [settings, &packets[2..]].concat()
}
