//! Reading and writing one form.

use super::fields_of;
use crate::answers::{cuts, folds, packets, sound};
use crate::forms;
use crate::model::examples::{conversation, packet_on};
use crate::model::tests::refusals::packets_out_of_range;
use crate::model::*;
use crate::random::Random;
use crate::records;

const BOUNDS: [u64; 9] = [0, 1, 3, 127, 128, 255, 65536, u32::MAX as u64, u64::MAX];

#[test]
fn document_01s_numbers() {
    let mut output = [0xA5; 3];
    assert_eq!(write_number(300, u64::MAX, &mut output), Ok(2));
    assert_eq!(output, [0xAC, 0x02, 0xA5]);
    assert_eq!(read_number(&[0xAC, 0x02, 0x80], 300), Ok((300, 2)));
    assert_eq!(read_number(&[0x80, 0x00], u64::MAX), Err(Refusal::Packet));
    assert_eq!(read_number(&[], u64::MAX), Err(Refusal::Packet));
    assert_eq!(read_number(&[0xAC], u64::MAX), Err(Refusal::Short));
}

#[test]
fn a_number_is_written_or_refused() {
    let mut output = [0xA5; 10];
    assert_eq!(write_number(256, 255, &mut []), Err(Refusal::Packet));
    assert_eq!(write_number(300, 300, &mut output[..1]), Err(Refusal::Room));
    assert_eq!(output, [0xA5; 10]);
    assert_eq!(write_number(u64::MAX, u64::MAX, &mut output), Ok(10));
}

/// Beside the other reader, on bytes at random: most have their top bit set.
#[test]
fn numbers_are_judged_as_elsewhere() {
    let mut random = Random::new(1);
    for _ in 0..200_000 {
        let length = random.below(12);
        let edges = [0, 1, 0x7F, 0x80, 0xFF];
        let any = |random: &mut Random| [random.u8() | 0x80, random.u8(), random.one_of(&edges)];
        let bytes: Vec<u8> = (0..length)
            .map(|_| {
                let choices = any(&mut random);
                random.one_of(&choices)
            })
            .collect();
        let most = random.one_of(&BOUNDS);
        let judged = read_number(&bytes, most)
            .err()
            .map(|refusal| refusal.number() as u8);
        assert_eq!(
            judged,
            forms::number_refusal(&bytes, most),
            "{bytes:?} {most}"
        );
    }
}

fn packet_forms() -> Vec<Vec<u8>> {
    let folds = folds::chosen(&mut Random::new(1));
    let packets = folds.iter().flat_map(|fold| &fold.packets);
    packets.map(|(_, packet)| records::packet(packet)).collect()
}

#[test]
fn a_packet_is_read_and_written_back() {
    for form in packet_forms() {
        let with_more = [&form[..], &[0xFF]].concat();
        let (packet, length) = read_packet(&with_more).expect("it is a packet");
        assert_eq!(length, form.len());
        let mut output = vec![0xA5; length + 1];
        assert_eq!(
            write_packet(&packet, &mut output[..length - 1]),
            Err(Refusal::Room)
        );
        assert_eq!(output, vec![0xA5; length + 1]);
        assert_eq!(write_packet(&packet, &mut output), Ok(length));
        assert_eq!(output, [&form[..], &[0xA5]].concat());
    }
}

#[test]
fn a_cut_packet_is_short() {
    for form in packet_forms() {
        for end in 1..form.len() {
            assert_eq!(read_packet(&form[..end]).err(), Some(Refusal::Short));
        }
    }
}

#[test]
fn bytes_that_are_no_packet() {
    for line in packets::refused() {
        let (bytes, answer) = fields_of(&line);
        let judged = read_packet(&bytes).expect_err("it is no packet");
        assert_eq!(judged.number(), answer, "{line}");
    }
}

/// Keys that are wrong or cut, behind the eight fields that come before a packet's key.
#[test]
fn bytes_that_are_no_key() {
    for line in cuts::refused(&mut Random::new(1)) {
        let (bytes, answer) = fields_of(&line);
        if !bytes.is_empty() {
            let judged = read_packet(&[&[0; 8], &bytes[..]].concat()).expect_err("it is no packet");
            assert_eq!(judged.number(), answer, "{line}");
        }
    }
}

#[test]
fn the_longest_forms() {
    let mut packet = packet_on(conversation(65535), u64::MAX, 511);
    (packet.frame_octets, packet.captured_octets) = (u32::MAX.into(), u32::MAX.into());
    (packet.ttl, packet.dscp, packet.ecn) = (Some(255), Some(255), Some(255));
    packet.icmp = Some(65535);
    packet.key = Key {
        protocol: 255,
        ethertype: Some(65535),
        endpoints: Endpoints::Ports {
            source: 65535,
            destination: 65535,
        },
        source: Address::V6([0xFF; 16]),
        destination: Address::V6([0xFF; 16]),
        vlan: vec![65535, 65535],
        encapsulation: Some(Encapsulation {
            kind: 255,
            id: Some(u32::MAX.into()),
        }),
        ..packet.key
    };
    assert_eq!(write_packet(&packet, &mut [0; 103]), Ok(103));
    assert_eq!(write_packet(&packet, &mut [0; 102]), Err(Refusal::Room));
}

#[test]
fn a_packet_with_a_field_out_of_range_is_not_written() {
    for packet in packets_out_of_range() {
        assert_eq!(write_packet(&packet, &mut []), Err(Refusal::Packet));
    }
}

#[test]
fn sound_records_are_read_and_written_back() {
    for line in sound::sound() {
        let (form, _) = fields_of(&line);
        let (record, length) = read_record(&form).expect("it is a record");
        assert_eq!(length, form.len());
        let mut output = vec![0xA5; length + 1];
        assert_eq!(
            write_record(&record, &mut output[..length - 1]),
            Err(Refusal::Room)
        );
        assert_eq!(write_record(&record, &mut output), Ok(length));
        assert_eq!(output, [&form[..], &[0xA5]].concat());
        for end in 1..length {
            assert_eq!(read_record(&form[..end]).err(), Some(Refusal::Short));
        }
    }
}

#[test]
fn bytes_that_are_no_record() {
    for line in sound::refused() {
        let (bytes, answer) = fields_of(&line);
        let judged = read_record(&bytes).expect_err("it is no record");
        assert_eq!(judged.number(), answer, "{line}");
    }
}

/// What is Short can go on by some byte, what is Packet by none: with that, and with what is read
/// being what is written, Short is "a proper, non-empty beginning of some form" and Packet is neither.
#[test]
fn short_and_packet_are_what_document_01_says() {
    let mut random = Random::new(1);
    let packets = packet_forms();
    for _ in 0..3000 {
        let mut bytes = random.one_of(&packets.iter().collect::<Vec<_>>()).clone();
        bytes.truncate(1 + random.below(bytes.len()));
        let place = random.below(bytes.len());
        bytes[place] = random.one_of(&[0, 1, 3, 5, 6, 0x7F, 0x80, 0x81, 0xFF]);
        let refusals: Vec<Option<Refusal>> = (0..=255)
            .map(|byte| read_packet(&[&bytes[..], &[byte]].concat()).err())
            .collect();
        match read_packet(&bytes) {
            Ok((packet, length)) => {
                let mut form = vec![0; length];
                assert_eq!(write_packet(&packet, &mut form), Ok(length));
                assert_eq!(form, bytes[..length]);
            }
            Err(Refusal::Short) => {
                assert!(
                    refusals
                        .iter()
                        .any(|refusal| *refusal != Some(Refusal::Packet))
                );
            }
            Err(_) => assert!(
                refusals
                    .iter()
                    .all(|refusal| *refusal == Some(Refusal::Packet))
            ),
        }
    }
}
