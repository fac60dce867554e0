//! What the programs that compare are started with, and what they end with.

use std::fmt::Display;
use std::process::ExitCode;
use std::time::{SystemTime, UNIX_EPOCH};

/// Puts the command line's numbers behind their names. Where it cannot, it has said why and how the program is called, and answers the
/// status to end with.
pub fn from_command_line(usage: &str, numbers: &mut [(&str, &mut u64)]) -> Result<(), ExitCode> {
    read(std::env::args().skip(1), numbers).map_err(|complaint| {
        eprintln!("{complaint}\nusage: {usage}");
        ExitCode::from(2)
    })
}

/// Says what was compared, or has the seed that shows a difference reported; answers the status to end with.
pub fn outcome<T: Display>(compared: Result<T, u64>, report: impl FnOnce(u64)) -> ExitCode {
    match compared {
        Ok(tally) => {
            println!("no difference: {tally}");
            ExitCode::SUCCESS
        }
        Err(seed) => {
            report(seed);
            ExitCode::FAILURE
        }
    }
}

/// Puts each number behind its name, or answers what is wrong with the arguments.
fn read(
    mut arguments: impl Iterator<Item = String>,
    numbers: &mut [(&str, &mut u64)],
) -> Result<(), String> {
    while let Some(name) = arguments.next() {
        let number = numbers.iter_mut().find(|(known, _)| *known == name);
        let Some((_, number)) = number else {
            return Err(format!("{name} is not known"));
        };
        let value = arguments.next().and_then(|value| value.parse().ok());
        **number = value.ok_or(format!("{name} takes a number"))?;
    }
    Ok(())
}

pub fn seed_from_the_clock() -> u64 {
    let since = SystemTime::now().duration_since(UNIX_EPOCH);
    since.map_or(1, |since| since.as_nanos() as u64)
}

#[cfg(test)]
mod tests {
    use super::*;

    fn read_line(line: &str) -> Result<(u64, u64), String> {
        let (mut scripts, mut seed) = (5, 7);
        let arguments = line.split_whitespace().map(String::from);
        read(
            arguments,
            &mut [("--scripts", &mut scripts), ("--seed", &mut seed)],
        )?;
        Ok((scripts, seed))
    }

    #[test]
    fn numbers_behind_their_names() {
        assert_eq!(read_line(""), Ok((5, 7)));
        assert_eq!(read_line("--seed 1"), Ok((5, 1)));
        assert_eq!(read_line("--seed 1 --scripts 2"), Ok((2, 1)));
    }

    #[test]
    fn what_is_wrong() {
        assert_eq!(read_line("--seed"), Err("--seed takes a number".into()));
        assert_eq!(read_line("--seed x"), Err("--seed takes a number".into()));
        assert_eq!(read_line("--x 1"), Err("--x is not known".into()));
    }
}
