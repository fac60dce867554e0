//! Forms written, read back, cut and spoilt.

mod common;

use braidpuddle::{
    read_number, write_number, Bounds, Key, Packet, Packets, Record, Records, Refusal, TcpFlags,
    KEY_MOST, PACKET_MOST, RECORD_MOST,
};
use common::{batch, Random};

const ROUNDS: usize = 5000;

#[test]
fn numbers_are_read_back() {
    let mut random = Random(1);
    for _ in 0..ROUNDS {
        let value = random.sized(64);
        let mut bytes = Vec::new();
        let length = write_number(value, u64::MAX, &mut bytes).unwrap();
        assert_eq!(length, bytes.len());
        assert_eq!(read_number(&bytes, value), Ok((value, length)));
        bytes.push(random.number() as u8);
        assert_eq!(read_number(&bytes, u64::MAX), Ok((value, length)));
        if value > 0 {
            assert_eq!(read_number(&bytes, value - 1), Err(Refusal::Packet));
        }
    }
}

#[test]
fn numbers_are_refused() {
    assert_eq!(read_number(&[], 9), Err(Refusal::Packet));
    assert_eq!(read_number(&[0x80, 0x00], 65535), Err(Refusal::Packet));
    assert_eq!(read_number(&[0xff; 9], u64::MAX), Err(Refusal::Short));
    assert_eq!(read_number(&[0xff; 10], u64::MAX), Err(Refusal::Packet));
    let mut out = vec![1];
    assert_eq!(write_number(10, 9, &mut out), Err(Refusal::Packet));
    assert_eq!(out, [1]);
}

#[test]
fn keys_are_read_back() {
    let mut random = Random(2);
    for _ in 0..ROUNDS {
        let key = random.key();
        let mut bytes = Vec::new();
        let length = key.encode(&mut bytes).unwrap();
        assert!(length <= KEY_MOST);
        bytes.push(0xAA);
        assert_eq!(Key::decode(&bytes), Ok((key, length)));
        for cut in 1..length {
            assert_eq!(Key::decode(&bytes[..cut]), Err(Refusal::Short));
        }
    }
    assert_eq!(Key::decode(&[]), Err(Refusal::Packet));
}

#[test]
fn packets_are_read_back() {
    let mut random = Random(3);
    for _ in 0..ROUNDS {
        let packet = random.packet();
        let mut bytes = vec![9];
        let length = packet.encode(&mut bytes).unwrap();
        assert!((35..=PACKET_MOST).contains(&length));
        let form = &bytes[1..];
        assert_eq!(Packet::decode(form), Ok((packet, length)));
        for cut in 1..length {
            assert_eq!(Packet::decode(&form[..cut]), Err(Refusal::Short));
        }
    }
    assert_eq!(Packet::decode(&[]), Err(Refusal::Packet));
}

#[test]
fn a_tenth_flag_is_out_of_range() {
    let mut packet = Random(4).packet();
    packet.facts.flags = Some(TcpFlags(0x1ff));
    let mut out = Vec::new();
    assert!(packet.encode(&mut out).is_ok());
    let before = out.clone();
    packet.facts.flags = Some(TcpFlags(0x200));
    assert_eq!(packet.encode(&mut out), Err(Refusal::Packet));
    assert_eq!(out, before);
}

#[test]
fn records_are_read_back() {
    let mut random = Random(5);
    for _ in 0..ROUNDS {
        let record = random.record();
        let mut bytes = vec![9];
        let length = record.encode(&mut bytes).unwrap();
        assert!(length <= RECORD_MOST);
        let form = &bytes[1..];
        assert_eq!(Record::decode(form), Ok((record, length)));
    }
    assert_eq!(Record::decode(&[]), Err(Refusal::Record));
    assert_eq!(Record::decode(&[2]), Err(Refusal::Record));
}

#[test]
fn a_cut_record_is_short() {
    let mut random = Random(6);
    for _ in 0..100 {
        let mut bytes = Vec::new();
        let length = random.record().encode(&mut bytes).unwrap();
        for cut in 1..length {
            assert_eq!(Record::decode(&bytes[..cut]), Err(Refusal::Short));
        }
    }
}

#[test]
fn a_record_that_is_not_sound_is_not_written() {
    let sound = Random(7).record();
    let damages: [fn(&mut Record); 6] = [
        |record| {
            (record.counts.start, record.counts.end) =
                (braidpuddle::Nanos(2), braidpuddle::Nanos(1))
        },
        |record| (record.counts.forward.packets, record.counts.reverse.packets) = (0, 0),
        |record| record.counts.forward.length = None,
        |record| record.counts.forward.flags.ns = record.counts.forward.packets + 1,
        |record| {
            record.counts.ttl = Some(Bounds {
                least: 2,
                greatest: 1,
            })
        },
        |record| {
            (
                record.counts.forward.frame_octets,
                record.counts.reverse.frame_octets,
            ) = (u64::MAX, 1)
        },
    ];
    for (number, damage) in damages.into_iter().enumerate() {
        let mut record = both_ways(sound);
        assert!(record.encode(&mut Vec::new()).is_ok());
        damage(&mut record);
        let mut out = vec![1];
        assert_eq!(
            record.encode(&mut out),
            Err(Refusal::Damaged),
            "damage {number}"
        );
        assert_eq!(out, [1]);
    }
}

/// The record with the same packets both ways.
fn both_ways(mut record: Record) -> Record {
    let counts = &mut record.counts;
    let some = if counts.forward.packets > 0 {
        counts.forward
    } else {
        counts.reverse
    };
    (counts.forward, counts.reverse) = (some, some);
    record
}

#[test]
fn spoilt_bytes_of_a_record_are_refused_or_another_record() {
    let mut random = Random(8);
    let mut refused = 0;
    for _ in 0..ROUNDS {
        let mut bytes = Vec::new();
        random.record().encode(&mut bytes).unwrap();
        let place = random.below(bytes.len() as u64) as usize;
        bytes[place] = random.number() as u8;
        match Record::decode(&bytes) {
            Ok((record, length)) => {
                let mut again = Vec::new();
                assert_eq!(record.encode(&mut again), Ok(length));
                assert_eq!(again, bytes[..length]);
            }
            Err(refusal) => {
                assert!([Refusal::Record, Refusal::Short].contains(&refusal));
                refused += 1;
            }
        }
    }
    assert!(refused > 0);
}

#[test]
fn spoilt_bytes_of_a_packet_are_refused_or_another_packet() {
    let mut random = Random(12);
    let mut refused = 0;
    for _ in 0..ROUNDS {
        let mut bytes = batch(&[random.packet()]);
        let place = random.below(bytes.len() as u64) as usize;
        bytes[place] = random.number() as u8;
        match Packet::decode(&bytes) {
            Ok((packet, length)) => assert_eq!(batch(&[packet]), bytes[..length]),
            Err(refusal) => {
                assert!([Refusal::Packet, Refusal::Short].contains(&refusal));
                refused += 1;
            }
        }
    }
    assert!(refused > 0);
}

#[test]
fn packets_of_a_batch() {
    let mut random = Random(9);
    let packets: Vec<Packet> = (0..100).map(|_| random.packet()).collect();
    let bytes = batch(&packets);
    let read: Result<Vec<Packet>, Refusal> = Packets::new(&bytes).collect();
    assert_eq!(read, Ok(packets.clone()));

    let mut cut = Packets::new(&bytes[..bytes.len() - 1]);
    assert_eq!(cut.by_ref().filter(Result::is_ok).count(), 99);
    assert_eq!(cut.next(), None);
    assert_eq!(Packet::decode(cut.rest()), Err(Refusal::Short));
}

#[test]
fn records_of_an_output() {
    let mut random = Random(10);
    let records: Vec<Record> = (0..100).map(|_| random.record()).collect();
    let mut bytes = Vec::new();
    for record in &records {
        record.encode(&mut bytes).unwrap();
    }
    let read: Result<Vec<Record>, Refusal> = Records::new(&bytes).collect();
    assert_eq!(read, Ok(records));
    bytes.push(2);
    assert_eq!(Records::new(&bytes).last(), Some(Err(Refusal::Record)));
}
