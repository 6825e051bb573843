//! The load that `crates/speed` puts to the proved chip, call for call: each round programs and loads a page of block 1,
//! and the block is erased when its pages are used up. Prints how many ticks were answered, and a checksum over the words
//! that were loaded. The argument is the number of rounds.

use plain::array::{Array, Image, BLANK, BLOCK_WORDS};
use plain::chip::{Chip, Progress};
use std::process::ExitCode;

/// A command takes no more ticks.
const MOST_TICKS: u64 = 1056;

/// What the rounds so far came to.
#[derive(Clone, Copy)]
struct Tally {
    /// The ticks that were answered.
    ticks: u64,
    /// Over the words that were loaded.
    checksum: u32,
}

/// Ticks until the command ends; how many ticks were answered.
fn finish<A: Array>(chip: &mut Chip<A>) -> u64 {
    for k in 0..MOST_TICKS {
        match chip.tick() {
            Ok(Progress::Running) => {}
            Ok(Progress::Ended) => return k + 1,
            Err(_) => return k,
        }
    }
    MOST_TICKS
}

/// Writes a word to an address. A write that is refused changes nothing.
fn put<A: Array>(chip: &mut Chip<A>, address: u16, word: u16) {
    let _ = chip.write(address, word);
}

/// Clears the interrupt, writes the command and ticks until it ends; how many ticks were answered.
fn command<A: Array>(chip: &mut Chip<A>, code: u16) -> u64 {
    put(chip, 0xF241, 0x0000);
    put(chip, 0xF220, code);
    finish(chip)
}

/// Puts a round's word into the buffer, and chooses both sectors of its page.
fn prepare<A: Array>(chip: &mut Chip<A>, round: u32) {
    put(chip, 0x0200, (round % 65536) as u16);
    put(chip, 0xF100, 1);
    put(chip, 0xF107, (round % 64 * 4) as u16);
    put(chip, 0xF200, 0x0800);
}

/// One round: a program and a load of a page, and after the last page an erase.
fn play_round<A: Array>(chip: &mut Chip<A>, round: u32, tally: Tally) -> Tally {
    prepare(chip, round);
    let programming = command(chip, 0x0080);
    let loading = command(chip, 0x0000);
    let word = chip.read(0x0200).unwrap_or(0);
    let erasing = if round % 64 == 63 { command(chip, 0x0094) } else { 0 };
    Tally {
        ticks: tally.ticks.wrapping_add(programming + loading + erasing),
        checksum: tally.checksum.wrapping_mul(31).wrapping_add(u32::from(word)),
    }
}

/// Unlocks both blocks, and plays the rounds.
fn play<A: Array>(chip: &mut Chip<A>, rounds: u32) -> Tally {
    put(chip, 0xF24C, 0);
    put(chip, 0xF24D, 1);
    let ticks = command(chip, 0x0023);
    let mut tally = Tally { ticks, checksum: 0 };
    for round in 0..rounds {
        tally = play_round(chip, round, tally);
    }
    tally
}

/// The program's argument.
fn rounds_asked() -> Result<u32, &'static str> {
    let word = std::env::args().nth(1).ok_or("give the number of rounds")?;
    word.parse().map_err(|_| "the number of rounds is no number below 4294967296")
}

fn main() -> ExitCode {
    let rounds = match rounds_asked() {
        Ok(rounds) => rounds,
        Err(what) => {
            eprintln!("Error: {what}");
            return ExitCode::FAILURE;
        }
    };
    let mut words = vec![BLANK; 2 * BLOCK_WORDS];
    let worn = [0; 2];
    let mut chip = Chip::power_up(Image::new(&mut words, &worn), 0x0004, 0x0000);
    let tally = play(&mut chip, rounds);
    println!("ticks {}\nchecksum {:08X}", tally.ticks, tally.checksum);
    ExitCode::SUCCESS
}
