//! Scripts and their transcripts, as `docs/SCRIPT.md` has them.

use crate::array::Array;
use crate::chip::{Chip, Refusal};

pub const MAX_SCRIPT: usize = 16_384;

#[derive(Clone, Copy, Debug, PartialEq, Eq)]
enum Form {
    Read(u16),
    Write(u16, u16),
    Tick(u16),
    Warm,
    Cold,
}

#[derive(Clone, Copy)]
enum Kind {
    Read,
    Write,
    Tick,
    Warm,
    Cold,
}

/// Every form's text, with `#` for a digit.
const SHAPES: [(Kind, &[u8]); 5] = [
    (Kind::Read, b"(read (####))"),
    (Kind::Write, b"(write (#### ####))"),
    (Kind::Tick, b"(tick (####))"),
    (Kind::Warm, b"(warm)"),
    (Kind::Cold, b"(cold)"),
];

fn digit(byte: u8) -> Option<u16> {
    match byte {
        b'0'..=b'9' => Some(u16::from(byte - b'0')),
        b'A'..=b'F' => Some(u16::from(byte - b'A') + 10),
        _ => None,
    }
}

/// How many bytes at the front of the line begin the shape.
fn front(shape: &[u8], line: &[u8]) -> usize {
    let fits = |(want, have): &(&u8, &u8)| if **want == b'#' { digit(**have).is_some() } else { want == have };
    shape.iter().zip(line).take_while(fits).count()
}

/// The number whose four digits begin at `at`; the line has fitted its shape.
fn number(line: &[u8], at: usize) -> u16 {
    line[at..at + 4].iter().fold(0, |sum, byte| sum << 4 | digit(*byte).unwrap_or(0))
}

/// What a line asks, or the column at which it stops being a form.
fn form_of(line: &[u8]) -> Result<Form, usize> {
    let mut longest = 0;
    for (kind, shape) in SHAPES {
        let fitting = front(shape, line);
        if fitting == shape.len() && fitting == line.len() {
            return Ok(match kind {
                Kind::Read => Form::Read(number(line, 7)),
                Kind::Write => Form::Write(number(line, 8), number(line, 13)),
                Kind::Tick => Form::Tick(number(line, 7)),
                Kind::Warm => Form::Warm,
                Kind::Cold => Form::Cold,
            });
        }
        longest = longest.max(fitting);
    }
    Err(longest + 1)
}

/// Plays one line and gives its line of the transcript.
fn play_line<A: Array>(chip: &mut Chip<A>, line: &[u8], count: usize) -> String {
    let refused = |refusal: Refusal| format!("(refused (chip {} {} 1))\n", refusal.number(), count);
    match form_of(line) {
        Ok(Form::Read(address)) => match chip.read(address) {
            Ok(word) => format!("(read ({address:04X} {word:04X}))\n"),
            Err(refusal) => refused(refusal),
        },
        Ok(Form::Write(address, word)) => match chip.write(address, word) {
            Ok(()) => format!("(write ({address:04X} {word:04X}))\n"),
            Err(refusal) => refused(refusal),
        },
        Ok(Form::Tick(asked)) => {
            let mut ran = 0;
            while ran < asked && chip.tick().is_ok() {
                ran += 1;
            }
            format!("(tick ({ran:04X}))\n")
        }
        Ok(Form::Warm) => {
            chip.warm();
            "(warm)\n".to_string()
        }
        Ok(Form::Cold) => {
            chip.cold();
            "(cold)\n".to_string()
        }
        Err(column) => format!("(refused (script 12 {count} {column}))\n"),
    }
}

/// Plays a script on the chip and gives its transcript.
pub fn play_script<A: Array>(chip: &mut Chip<A>, script: &[u8]) -> Vec<u8> {
    if script.len() > MAX_SCRIPT {
        return b"(refused (script 13 1 1))\n".to_vec();
    }
    let mut transcript = Vec::new();
    // After a last line feed no line begins.
    for (i, line) in script.split_inclusive(|byte| *byte == b'\n').enumerate() {
        let line = line.strip_suffix(b"\n").unwrap_or(line);
        transcript.extend_from_slice(play_line(chip, line, i + 1).as_bytes());
    }
    transcript
}
