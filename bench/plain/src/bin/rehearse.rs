//! Plays the script on standard input and prints its transcript.

use plain::array::{Sheet, Sheets, BLANK, PAGE_WORDS};
use plain::chip::Chip;
use plain::script::play_script;
use std::io::{self, Read, Write};

fn main() -> io::Result<()> {
    let mut script = Vec::new();
    io::stdin().read_to_end(&mut script)?;
    // Page 0 of both blocks is there, and blank.
    let mut sheets = [Sheet { block: 0, page: 0, written: 0 }, Sheet { block: 1, page: 0, written: 0 }];
    let mut words = vec![BLANK; 2 * PAGE_WORDS];
    let mut chip = Chip::power_up(Sheets::new(2, &mut sheets, &mut words), 0x0004, 0x0000);
    io::stdout().write_all(&play_script(&mut chip, &script))
}
