//! Prints the list of known answers for packets, records, and packets counted on a record.

use compare::answers::sections::Sections;
use compare::answers::{folds, lines, packets, sound};
use compare::random::Random;

/// Any number would do. It is fixed so that every run prints the same list.
const SEED: u64 = 314_159_265;

const HEADER: &str = "\
Known answers for packets, records, and packets counted on a record.

Made by
  BRAIDPUDDLE_RUST_SRC=FOLDER cargo run --release --offline --manifest-path tools/compare/Cargo.toml --bin record_answers
where FOLDER holds the Rust's sources. The counting is that of its mod.rs, stats.rs and time.rs, unchanged,
with key.rs, encapsulation.rs, vlan.rs, link.rs and paths.rs beside them: FlowRecord's open, observe, close
and totals. How a record is opened for its first packet is written in the tool (tools/compare/src/answers/folds.rs)
as in the Rust's flow_engine.rs, which is not built. The Rust has no byte forms: those, and what is refused,
are the tool's own (tools/compare/src/forms.rs and records.rs), written from document 01.

A line is one answer. Its fields have one space between them; bytes are in hex, numbers in decimal, and
'-' is nothing. A line that begins with '#' is a comment.

  p HEX          a packet's form. The program that replays the list also cuts it at every length.
  y HEX ANSWER   reading one packet from HEX is refused: 4 where no packet begins HEX and HEX begins
                 none, 9 where HEX is a proper beginning of one
  f RESOLUTION REASON DIRECTIONS PACKETS RECORD
                 a record begun with the first of the packets and counted on with the others has this
                 form once it is closed, under the first packet's key. RESOLUTION is 0 for microseconds,
                 1 for finer. REASON is the Rust's own name of the end reason. DIRECTIONS has a letter for each
                 packet: f forward, r reverse. PACKETS are forms with a comma between them. RECORD, too, is cut
                 at every length.
  t RECORD PACKETS OCTETS BOTHWAYS DURATION
                 what is derived from such a record: the packets and the octets of both directions
                 together; 1 if both have packets, else 0; how long it lasted
  r HEX          a sound record's form, at the edges of what is sound. It is cut at every length.
  x HEX ANSWER   reading one record from HEX is refused: 8 where no record begins HEX, as for each that
                 is not sound, 9 where HEX is a proper beginning of one
";

fn main() {
    let mut random = Random::new(SEED);
    let mut list = Sections::under(HEADER);
    list.comment("");
    list.comment(&format!(
        "The packets that are not chosen by hand come from SplitMix64 with the seed {SEED}."
    ));
    let folds = folds::chosen(&mut random);
    let used = folds.iter().flat_map(|fold| &fold.packets);
    list.print(
        "Packets",
        used.map(|(_, packet)| lines::packet(packet)).collect(),
    );
    list.print("Bytes that are no packet", packets::refused());
    list.print(
        "Packets counted on a record",
        folds.iter().map(lines::fold).collect(),
    );
    list.print(
        "Totals of these records",
        folds.iter().map(lines::totals).collect(),
    );
    list.print("Records at the edges of what is sound", sound::sound());
    list.print("Bytes that are no record", sound::refused());
}
