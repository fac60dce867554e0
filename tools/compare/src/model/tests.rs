//! The model by itself, beside the other writer of forms, and beside the Rust's counting.

mod forms;
mod host;
mod order;
mod refusals;

/// The fields of a line of known answers: its letter, then bytes in hex, '-' for none, then a number.
fn fields_of(line: &str) -> (Vec<u8>, u64) {
    let mut fields = line.split(' ').skip(1);
    let hex = fields.next().expect("a line has bytes");
    let answer = fields
        .next()
        .map_or(0, |answer| answer.parse().expect("a number"));
    (bytes_of(hex), answer)
}

fn bytes_of(hex: &str) -> Vec<u8> {
    if hex == "-" {
        return Vec::new();
    }
    let digits: Vec<u8> = hex
        .bytes()
        .map(|digit| (digit as char).to_digit(16).expect("hex") as u8)
        .collect();
    digits
        .chunks(2)
        .map(|pair| 16 * pair[0] + pair[1])
        .collect()
}
