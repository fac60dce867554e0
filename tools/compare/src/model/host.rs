//! A record that a host holds by itself: "begun with its first packet counted forward", it "may have a
//! packet counted on that record directly, updated where it stands, in a direction it names".

use super::counting::{count, opening};
use super::packet::Packet;
use super::record::{Record, Way};
use super::refusal::Refusal;
use super::sound::sound_but_for_its_reason;

/// A record with its first packet counted. Resolution 0 is microseconds, any other number finer.
pub fn begin(packet: &Packet, resolution: u64) -> Result<Record, Refusal> {
    if !packet.in_range() {
        return Err(Refusal::Packet);
    }
    let mut record = opening(packet, u64::from(resolution != 0));
    count(&mut record, Way::Forward, packet)?;
    Ok(record)
}

/// Counts a packet. "Damaged (end reason aside), Packet or Spent, in that order, leaves it unchanged."
pub fn observe(record: &mut Record, way: Way, packet: &Packet) -> Result<(), Refusal> {
    if !sound_but_for_its_reason(record) {
        return Err(Refusal::Damaged);
    }
    if !packet.in_range() {
        return Err(Refusal::Packet);
    }
    count(record, way, packet)
}
