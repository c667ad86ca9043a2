//! Holds a listing program against the simulator's listing.
//!
//! `hold PROGRAM [--seed N] [--count N]`. The program gets each plan on
//! standard input, and what it prints must be the simulator's listing, byte
//! for byte. Ends with 1 at the first difference.

use std::io::Write;
use std::process::{Command, ExitCode, Stdio};
use std::{env, io, thread};

use simulator::generate::Scenarios;
use simulator::listing;

fn main() -> ExitCode {
    match hold(&env::args().skip(1).collect::<Vec<_>>()) {
        Ok(count) => {
            println!("{count} plans, no difference");
            ExitCode::SUCCESS
        }
        Err(complaint) => {
            println!("hold: {complaint}");
            ExitCode::FAILURE
        }
    }
}

fn hold(words: &[String]) -> Result<u64, String> {
    let (program, options) = words.split_first().ok_or("wants PROGRAM")?;
    let (mut seed, mut count) = (1_u64, 1_000_u64);
    for pair in options.chunks(2) {
        let number = pair.get(1).and_then(|word| word.parse().ok());
        match (pair[0].as_str(), number) {
            ("--seed", Some(number)) => seed = number,
            ("--count", Some(number)) => count = number,
            _ => return Err(format!("not understood: {pair:?}")),
        }
    }
    let source = Scenarios::new();
    for number in 0..count {
        let scenario = source.of(seed.wrapping_mul(1 << 40).wrapping_add(number));
        let printed = print_of(program, &scenario.file).map_err(|e| format!("{program}: {e}"))?;
        let wanted = listing(&scenario.file);
        if printed != wanted.as_bytes() {
            let printed = String::from_utf8_lossy(&printed);
            let label = scenario.label;
            let file = hex(&scenario.file);
            return Err(format!(
                "{label}\nplan: {file}\nprinted:\n{printed}wanted:\n{wanted}"
            ));
        }
    }
    Ok(count)
}

/// What the program prints for a plan. The plan is written by a thread of its
/// own, so that neither side waits for the other.
fn print_of(program: &str, file: &[u8]) -> io::Result<Vec<u8>> {
    let mut child = Command::new(program)
        .stdin(Stdio::piped())
        .stdout(Stdio::piped())
        .spawn()?;
    let mut input = child.stdin.take().expect("a piped input");
    let file = file.to_vec();
    // A program may leave bytes behind the longest file unread.
    let writer = thread::spawn(move || drop(input.write_all(&file)));
    let output = child.wait_with_output()?;
    writer.join().expect("the writer ends");
    match output.status.success() {
        true => Ok(output.stdout),
        false => Err(io::Error::other(format!("ended with {}", output.status))),
    }
}

fn hex(bytes: &[u8]) -> String {
    bytes.iter().map(|byte| format!("{byte:02x}")).collect()
}
