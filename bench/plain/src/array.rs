//! Flash arrays, as `docs/ARRAYS.md` has them.

pub const MAX_BLOCKS: usize = 256;
pub const BLOCK_PAGES: usize = 64;
pub const PAGE_WORDS: usize = 528;
pub const BLOCK_WORDS: usize = BLOCK_PAGES * PAGE_WORDS;
pub const BLANK: u16 = 0xFFFF;

/// What a program or an erase came to. A call that failed changed nothing.
#[derive(Clone, Copy, Debug, PartialEq, Eq)]
pub enum Outcome {
    Done,
    Failed,
}

pub trait Array {
    /// How many blocks there are: 0 to 256.
    fn count(&self) -> usize;

    /// The word, and FFFFh where block, page or word is out of range.
    fn read(&mut self, block: usize, page: usize, word: usize) -> u16;

    /// ANDs a word in.
    fn program(&mut self, block: usize, page: usize, word: usize, value: u16) -> Outcome;

    /// Makes every word of the block FFFFh.
    fn erase(&mut self, block: usize) -> Outcome;
}

/// Why a check refused.
#[derive(Clone, Copy, Debug, PartialEq, Eq)]
pub enum Fault {
    ImageSize,
    WornList,
    SheetSizes,
    Scratch,
    Sheet,
}

impl Fault {
    pub fn number(self) -> u8 {
        match self {
            Fault::ImageSize => 1,
            Fault::WornList => 2,
            Fault::SheetSizes => 3,
            Fault::Scratch => 4,
            Fault::Sheet => 5,
        }
    }
}

/// The array in words that the caller lends: block after block, page after page.
pub struct Image<'a> {
    words: &'a mut [u16],
    worn: &'a [u8],
    blocks: usize,
}

impl<'a> Image<'a> {
    pub fn check(words: &[u16], worn: &[u8]) -> Result<(), Fault> {
        if words.len() % BLOCK_WORDS != 0 || words.len() > MAX_BLOCKS * BLOCK_WORDS {
            return Err(Fault::ImageSize);
        }
        if worn.len() != words.len() / BLOCK_WORDS {
            return Err(Fault::WornList);
        }
        Ok(())
    }

    /// From what the check refuses, an array of no blocks.
    pub fn new(words: &'a mut [u16], worn: &'a [u8]) -> Self {
        let blocks = match Self::check(words, worn) {
            Ok(()) => worn.len(),
            Err(_) => 0,
        };
        Image { words, worn, blocks }
    }

    fn place(&self, block: usize, page: usize, word: usize) -> Option<usize> {
        if block < self.blocks && page < BLOCK_PAGES && word < PAGE_WORDS {
            Some(block * BLOCK_WORDS + page * PAGE_WORDS + word)
        } else {
            None
        }
    }
}

impl Array for Image<'_> {
    fn count(&self) -> usize {
        self.blocks
    }

    fn read(&mut self, block: usize, page: usize, word: usize) -> u16 {
        match self.place(block, page, word) {
            Some(at) => self.words[at],
            None => BLANK,
        }
    }

    fn program(&mut self, block: usize, page: usize, word: usize, value: u16) -> Outcome {
        match self.place(block, page, word) {
            Some(at) if self.worn[block] == 0 => {
                self.words[at] &= value;
                Outcome::Done
            }
            _ => Outcome::Failed,
        }
    }

    fn erase(&mut self, block: usize) -> Outcome {
        if block >= self.blocks || self.worn[block] != 0 {
            return Outcome::Failed;
        }
        self.words[block * BLOCK_WORDS..(block + 1) * BLOCK_WORDS].fill(BLANK);
        Outcome::Done
    }
}

/// One page that is there. While `written` is 0 it reads FFFFh throughout.
#[derive(Clone, Copy, Debug)]
pub struct Sheet {
    pub block: u16,
    pub page: u16,
    pub written: u8,
}

impl Sheet {
    fn is_of(&self, block: usize, page: usize) -> bool {
        usize::from(self.block) == block && usize::from(self.page) == page
    }
}

/// The array of single pages that the caller lends: sheet k has the words from 528·k on.
pub struct Sheets<'a> {
    sheets: &'a mut [Sheet],
    words: &'a mut [u16],
    blocks: usize,
}

impl<'a> Sheets<'a> {
    fn sizes_fit(blocks: usize, sheets: &[Sheet], words: &[u16]) -> bool {
        blocks <= MAX_BLOCKS && sheets.len() <= 64 && words.len() == sheets.len() * PAGE_WORDS
    }

    pub fn check(blocks: usize, sheets: &[Sheet], words: &[u16], scratch: &mut [u8]) -> Result<(), Fault> {
        if !Self::sizes_fit(blocks, sheets, words) {
            return Err(Fault::SheetSizes);
        }
        if scratch.len() < blocks * BLOCK_PAGES {
            return Err(Fault::Scratch);
        }
        scratch[..blocks * BLOCK_PAGES].fill(0);
        for sheet in sheets {
            let (block, page) = (usize::from(sheet.block), usize::from(sheet.page));
            if block >= blocks || page >= BLOCK_PAGES {
                return Err(Fault::Sheet);
            }
            let mark = &mut scratch[block * BLOCK_PAGES + page];
            if *mark != 0 {
                return Err(Fault::Sheet);
            }
            *mark = 1;
        }
        Ok(())
    }

    /// From sizes that do not fit, an array of no blocks.
    pub fn new(blocks: usize, sheets: &'a mut [Sheet], words: &'a mut [u16]) -> Self {
        let blocks = if Self::sizes_fit(blocks, sheets, words) { blocks } else { 0 };
        Sheets { sheets, words, blocks }
    }

    /// The first sheet of the page, if the page can be asked for and has one.
    fn sheet_of(&self, block: usize, page: usize) -> Option<usize> {
        if block >= self.blocks || page >= BLOCK_PAGES {
            return None;
        }
        self.sheets.iter().position(|sheet| sheet.is_of(block, page))
    }
}

impl Array for Sheets<'_> {
    fn count(&self) -> usize {
        self.blocks
    }

    fn read(&mut self, block: usize, page: usize, word: usize) -> u16 {
        if word >= PAGE_WORDS {
            return BLANK;
        }
        match self.sheet_of(block, page) {
            Some(k) if self.sheets[k].written != 0 => self.words[k * PAGE_WORDS + word],
            _ => BLANK,
        }
    }

    fn program(&mut self, block: usize, page: usize, word: usize, value: u16) -> Outcome {
        if word >= PAGE_WORDS {
            return Outcome::Failed;
        }
        let Some(k) = self.sheet_of(block, page) else {
            return Outcome::Failed;
        };
        let words = &mut self.words[k * PAGE_WORDS..(k + 1) * PAGE_WORDS];
        if self.sheets[k].written == 0 {
            words.fill(BLANK);
            self.sheets[k].written = 1;
        }
        words[word] &= value;
        Outcome::Done
    }

    fn erase(&mut self, block: usize) -> Outcome {
        if block >= self.blocks {
            return Outcome::Failed;
        }
        for sheet in self.sheets.iter_mut() {
            if usize::from(sheet.block) == block {
                sheet.written = 0;
            }
        }
        Outcome::Done
    }
}
