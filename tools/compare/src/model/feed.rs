//! Feeding a batch: "takes every packet of the batch in order, to its empty end; only a refused packet
//! stops it".

use crate::engine::Answer;

use super::output::write_all;
use super::packet_form::read_packet;
use super::refusal::Refusal;
use super::rules::one_packet;
use super::sound::sound_state;
use super::state::State;

/// "3, then per packet 4 or 9, then 5 or 6, then 7."
pub fn feed(state: &mut State, batch: &[u8], output: &mut [u8]) -> Answer {
    if !sound_state(state) {
        return Answer::refused(Refusal::Damaged.number());
    }
    let mut answer = Answer::default();
    while (answer.batch_bytes_used as usize) < batch.len() {
        let remains = &batch[answer.batch_bytes_used as usize..];
        let room = &mut output[answer.output_bytes as usize..];
        match feed_one(state, remains, room) {
            Ok(one) => add(&mut answer, &one),
            Err(refusal) => {
                answer.refusal = refusal.number();
                break;
            }
        }
    }
    answer
}

/// Takes the packet that begins what remains of a batch. A refused one changes nothing.
fn feed_one(state: &mut State, remains: &[u8], room: &mut [u8]) -> Result<Answer, Refusal> {
    let (packet, length) = read_packet(remains)?;
    let mut after = state.clone();
    let outcome = one_packet(&mut after, &packet)?;
    let filled = write_all(&outcome.finished, room)?;
    *state = after;
    Ok(Answer {
        refusal: 0,
        packets_taken: 1,
        batch_bytes_used: length as u64,
        flows_opened: u64::from(outcome.opened),
        records_written: outcome.finished.len() as u64,
        output_bytes: filled as u64,
    })
}

fn add(answer: &mut Answer, one: &Answer) {
    answer.packets_taken += one.packets_taken;
    answer.batch_bytes_used += one.batch_bytes_used;
    answer.flows_opened += one.flows_opened;
    answer.records_written += one.records_written;
    answer.output_bytes += one.output_bytes;
}
