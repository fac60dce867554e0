//! Prints the list of known answers for numbers and keys.

use compare::answers::sections::Sections;
use compare::answers::{cuts, keys, lines, numbers};
use compare::random::Random;

/// Any number would do. It is fixed so that every run prints the same list.
const SEED: u64 = 271_828_182;

const HEADER: &str = "\
Known answers for numbers and keys.

Made by
  BRAIDPUDDLE_RUST_SRC=FOLDER cargo run --release --offline --manifest-path tools/compare/Cargo.toml --bin key_answers
where FOLDER holds the Rust's sources. The answers about keys are those of its key.rs, encapsulation.rs,
vlan.rs and link.rs, unchanged. The Rust has no byte forms: those, and what is refused, are the tool's own
(tools/compare/src/forms.rs), written from document 01, \"Byte forms\". Tunnels have no outer addresses, and
frames at most two VLAN tags.

A line is one answer. Its fields have one space between them; bytes are in hex, numbers in decimal, and
'-' is nothing. A line that begins with '#' is a comment.

  n MOST VALUE HEX     the number VALUE, of at most MOST, has the form HEX
  w MOST VALUE         VALUE is above MOST: writing it is refused with 4
  r MOST HEX ANSWER    reading one number of at most MOST from HEX is refused: 4 where no number begins HEX
                       and HEX begins none, 9 where HEX is a proper beginning of one
  k KEY REVERSED FORGOTTEN S0 S1 S2 S7 S4096 SMAX NAME VERSION BOTHWAYS PORTS SPI GRE
                       the forms of a key, of its reverse, and of it without link addresses; its shard
                       among 0, 1, 2, 7, 4096 and 2^64 - 1; its protocol's name; its IP version; 1 if
                       traffic the other way belongs to it, else 0; its ports, as SOURCE:DESTINATION; its
                       security association; its GRE protocol
  q HEX ANSWER         reading one key from HEX is refused: 4 or 9, as for a number
";

fn main() {
    let mut random = Random::new(SEED);
    let mut list = Sections::under(HEADER);
    list.comment("");
    list.comment(&format!(
        "The keys and numbers that are not chosen by hand come from SplitMix64 with the seed {SEED}."
    ));
    list.print("Numbers", numbers::written(&mut random));
    list.print("Numbers that are not written", numbers::refused_writing());
    list.print(
        "Bytes that are no number",
        numbers::refused_reading(&mut random),
    );
    list.print(
        "Keys",
        keys::chosen(&mut random).iter().map(lines::key).collect(),
    );
    list.print("Bytes that are no key", cuts::refused(&mut random));
}
