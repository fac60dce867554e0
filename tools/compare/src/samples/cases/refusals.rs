//! Packets that are refused: each line of open flows comes behind the refusal's.

use super::{Sample, example_packets};
use crate::model::{Key, Packet};
use crate::samples::input::{
    ACK, FIN, Input, MILLISECOND, SYN, both_fins, conversation, form, there,
};

/// As many as may be open at once.
const CAPACITY: u64 = 32;

pub fn cases() -> Vec<Sample> {
    [wrong_packets(), cut_packets(), full()]
        .into_iter()
        .flatten()
        .collect()
}

/// The example's first packets, which leave a flow open, and other bytes behind them.
fn some_then(count: usize, bytes: &[u8]) -> Input {
    Input::new(1000, 0)
        .packets(&example_packets()[..count])
        .bytes(bytes)
}

/// A good packet's form with one byte another. Its key begins at place 8, with the protocol and the
/// ethertype; the endpoints' tag is at 10, the source's tag behind the ports at 16.
fn spoilt(place: usize, byte: u8) -> Vec<u8> {
    let mut bytes = form(&there(&conversation(50_000), 10, ACK));
    bytes[place] = byte;
    bytes
}

fn wrong_packets() -> Vec<Sample> {
    vec![
        Sample::new("packet_wrong_at_once", some_then(0, &[0x80, 0x00])),
        Sample::new("packet_wrong_after_two", some_then(2, &[0x80, 0x00])),
        Sample::new("packet_of_ones", some_then(3, &[0xFF; 200])),
        Sample::new("packet_with_a_tenth_flag", some_then(2, &wide_mask())),
        Sample::new(
            "packet_with_another_endpoints_tag",
            some_then(2, &spoilt(10, 4)),
        ),
        Sample::new(
            "packet_with_another_address_tag",
            some_then(2, &spoilt(16, 5)),
        ),
        Sample::new("packet_wrong_before_good_ones", wrong_before_good()),
    ]
}

/// A mask of 512, one more than nine flags give: 513 in its optional form.
fn wide_mask() -> Vec<u8> {
    let mut bytes = form(&there(&conversation(50_000), 10, 0));
    bytes.splice(4..5, [0x81, 0x04]);
    bytes
}

fn wrong_before_good() -> Input {
    some_then(1, &[0x80, 0x00]).packets(&example_packets()[1..])
}

fn cut_packets() -> Vec<Sample> {
    let last = form(&example_packets()[4]);
    vec![
        Sample::new("packet_cut_to_a_byte", some_then(4, &last[..1])),
        Sample::new(
            "packet_cut_by_a_byte",
            some_then(4, &last[..last.len() - 1]),
        ),
        Sample::new("packet_cut_in_its_time", some_then(4, &[0xFF, 0xFF])),
    ]
}

fn opening(port: u64, time: u64) -> Packet {
    there(&conversation(port), time, ACK)
}

/// An input after which as many flows are open as may be.
fn all_open(timeout: u64) -> Input {
    let packets: Vec<Packet> = (0..CAPACITY)
        .map(|place| opening(1000 + place, place))
        .collect();
    Input::new(timeout, 0).packets(&packets)
}

fn full() -> Vec<Sample> {
    let first: Key = conversation(1000);
    let another = opening(2000, 100);
    let late = opening(2000, 1_500_000 + 31);
    vec![
        Sample::new("full", all_open(0).packet(&another)),
        Sample::new(
            "full_but_for_the_swept",
            all_open(1)
                .packet(&late)
                .packet(&opening(2001, 2 * MILLISECOND)),
        ),
        Sample::new(
            "full_one_nanosecond_before_a_sweep",
            all_open(1).packet(&opening(2000, 1_499_999)),
        ),
        Sample::new(
            "full_and_taken_by_an_open_flow",
            all_open(0).packet(&there(&first.reversed(), 100, ACK)),
        ),
        Sample::new(
            "full_and_taken_after_its_fins",
            all_open(0)
                .packets(&both_fins(&first, 100))
                .packet(&there(&first, 103, SYN))
                .packet(&another),
        ),
        Sample::new(
            "full_and_closed_without_syn",
            all_open(0).packets(&both_fins(&first, 100)).packet(&there(
                &conversation(2000),
                103,
                FIN,
            )),
        ),
    ]
}
