//! When flows leave: document 01's P1 to P5, and times out of order.

use super::Sample;
use crate::model::{Key, Packet};
use crate::samples::input::{ACK, Input, SECOND, back, both_fins, conversation, there};

pub fn cases() -> Vec<Sample> {
    [deadlines(), clocks()].into_iter().flatten().collect()
}

fn key(number: u64) -> Key {
    conversation(50_000 + number)
}

/// A flow that ends at 0, and a packet of another conversation whose sweep may hand it out.
fn swept_at(timeout: u64, time: u64) -> Input {
    Input::new(timeout, 0)
        .packet(&there(&key(0), 0, ACK))
        .packet(&there(&key(1), time, ACK))
}

fn deadlines() -> Vec<Sample> {
    let top = u64::MAX;
    vec![
        Sample::new("p1_timeout_0", swept_at(0, top)),
        Sample::new("p2_stays", swept_at(1, 1_499_999)),
        Sample::new("p2_leaves", swept_at(1, 1_500_000)),
        Sample::new("p3_stays", swept_at(10_000, 10_999_999_999)),
        Sample::new("p3_leaves", swept_at(10_000, 11_000_000_000)),
        Sample::new("p4_exact", swept_at(18_446_744_073_709, top)),
        Sample::new("p4_held", swept_at(18_446_744_073_710, top)),
        Sample::new(
            "longest_timeout_that_ends",
            swept_at(18_446_744_072_709, 18_446_744_073_709_000_000),
        ),
        Sample::new(
            "longest_timeout_not_yet",
            swept_at(18_446_744_072_709, 18_446_744_073_708_999_999),
        ),
    ]
}

fn clocks() -> Vec<Sample> {
    let late: Vec<Packet> = vec![
        there(&key(0), 20 * SECOND, ACK),
        there(&key(1), SECOND, ACK),
        there(&key(2), SECOND, ACK),
    ];
    let out_of_order = vec![
        there(&key(0), 500, ACK),
        back(&key(0), 100, ACK),
        there(&key(0), 900, ACK),
        back(&key(0), 300, ACK),
        there(&key(1), 1_500_900, ACK),
    ];
    let fins_then_idle = [
        &both_fins(&key(0), 0)[..],
        &[there(&key(1), 2 * SECOND, ACK)],
    ]
    .concat();
    vec![
        Sample::new("p5_a_late_packet", Input::new(1000, 0).packets(&late)),
        Sample::new(
            "times_out_of_order",
            Input::new(1, 0).packets(&out_of_order),
        ),
        Sample::new(
            "closed_and_swept",
            Input::new(1000, 0).packets(&fins_then_idle),
        ),
        Sample::new(
            "leaving_in_order_of_end_and_key",
            Input::new(1, 0).packets(&leaving_in_order()),
        ),
        Sample::new("times_at_the_top", Input::new(1, 0).packets(&at_the_top())),
    ]
}

/// Three flows with one end and two with others, handed out by one packet.
fn leaving_in_order() -> Vec<Packet> {
    let ends = [(4, 300), (2, 700), (3, 300), (0, 300), (1, 100)];
    let mut packets: Vec<Packet> = ends
        .iter()
        .map(|(number, end)| there(&key(*number), *end, ACK))
        .collect();
    // Lines that tell the flows apart.
    for (place, packet) in packets.iter_mut().enumerate() {
        packet.frame_octets = 100 + place as u64;
    }
    packets.push(there(&key(9), 1_500_700, ACK));
    packets
}

fn at_the_top() -> Vec<Packet> {
    let top = u64::MAX;
    vec![
        there(&key(0), top - 1_500_000, ACK),
        there(&key(1), top - 1, ACK),
        back(&key(1), top, ACK),
        there(&key(2), top, ACK),
    ]
}
