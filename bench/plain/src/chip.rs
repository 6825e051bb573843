//! The chip, as `docs/CHIP.md` has it.

use crate::array::{Array, Outcome, BLANK, BLOCK_PAGES, PAGE_WORDS};

/// Why a call was refused. A refused call changes nothing.
#[derive(Clone, Copy, Debug, PartialEq, Eq)]
pub enum Refusal {
    Unassigned,
    Taken,
    ReadOnly,
    Busy,
    Pending,
    Idle,
}

impl Refusal {
    pub fn number(self) -> u8 {
        match self {
            Refusal::Unassigned => 6,
            Refusal::Taken => 7,
            Refusal::ReadOnly => 8,
            Refusal::Busy => 9,
            Refusal::Pending => 10,
            Refusal::Idle => 11,
        }
    }
}

/// What a tick answers: 1 while the command runs on, 0 when it ended.
#[derive(Clone, Copy, Debug, PartialEq, Eq)]
pub enum Progress {
    Running,
    Ended,
}

#[derive(Clone, Copy, Debug, PartialEq, Eq)]
enum Lock {
    Locked,
    Unlocked,
    Tight,
}

#[derive(Clone, Copy, Debug, PartialEq, Eq)]
enum Command {
    Load,
    LoadSpare,
    Program,
    ProgramSpare,
    CopyBack,
    Erase,
    Verify,
    Unlock,
    Lock,
    LockTight,
    CoreReset,
    HotReset,
    Unknown,
}

// Bits of the status, F240h.
const ON_GO: u16 = 0x8000;
const LOCK: u16 = 0x4000;
const ERROR: u16 = 0x0400;

// INT, bit 15 of F241h.
const INT: u16 = 0x8000;

const SECTOR_WORDS: usize = 264;
const SECTOR_MAIN: usize = 256;
const SECTOR_SPARE: usize = 8;
const DATA_MAIN: usize = 4 * SECTOR_MAIN;
const DATA_WORDS: usize = 4 * SECTOR_WORDS;
const PAGE_MAIN: usize = 2 * SECTOR_MAIN;

impl Command {
    fn of(word: u16) -> Command {
        match word {
            0x0000 => Command::Load,
            0x0013 => Command::LoadSpare,
            0x0080 => Command::Program,
            0x001A => Command::ProgramSpare,
            0x001B => Command::CopyBack,
            0x0094 => Command::Erase,
            0x0071 => Command::Verify,
            0x0023 => Command::Unlock,
            0x002A => Command::Lock,
            0x002C => Command::LockTight,
            0x00F0 => Command::CoreReset,
            0x00F3 => Command::HotReset,
            _ => Command::Unknown,
        }
    }

    /// The bit of its kind in F240h.
    fn kind(self) -> u16 {
        match self {
            Command::Load | Command::LoadSpare => 0x2000,
            Command::Program | Command::ProgramSpare | Command::CopyBack => 0x1000,
            Command::Erase | Command::Verify => 0x0800,
            Command::CoreReset | Command::HotReset => 0x0080,
            Command::Unlock | Command::Lock | Command::LockTight | Command::Unknown => 0x0000,
        }
    }

    /// What F241h gains at its end.
    fn raised(self) -> u16 {
        match self {
            Command::Load | Command::LoadSpare => 0x8080,
            Command::Program | Command::ProgramSpare | Command::CopyBack => 0x8040,
            Command::Erase => 0x8020,
            Command::CoreReset | Command::HotReset => 0x8010,
            _ => 0x8000,
        }
    }

    fn is_transfer(self) -> bool {
        matches!(
            self,
            Command::Load | Command::LoadSpare | Command::Program | Command::ProgramSpare | Command::CopyBack
        )
    }

    fn is_spare(self) -> bool {
        matches!(self, Command::LoadSpare | Command::ProgramSpare)
    }

    fn is_reset(self) -> bool {
        matches!(self, Command::CoreReset | Command::HotReset)
    }

    /// While one of these runs, not even a reset is accepted.
    fn holds_off(self) -> bool {
        self.is_reset() || matches!(self, Command::Unlock | Command::Lock | Command::LockTight)
    }
}

/// Registers that the host sets and a command takes as they are.
#[derive(Clone, Copy, Debug, Default)]
struct Operands {
    block: u16,       // F100h
    copy_block: u16,  // F102h
    copy_page: u16,   // F103h
    page: u16,        // F107h
    buffer: u16,      // F200h
    first_block: u16, // F24Ch
    last_block: u16,  // F24Dh
}

/// A page and the sector of it that a transfer starts with.
#[derive(Clone, Copy, Debug)]
struct Spot {
    block: usize,
    page: usize,
    sector: usize,
}

impl Spot {
    fn new(block: u16, page: u16) -> Spot {
        Spot { block: usize::from(block), page: usize::from(page >> 2), sector: usize::from(page & 1) }
    }
}

/// Everything that an accepted command took, and what the checks made of it.
#[derive(Clone, Copy, Debug)]
struct Plan {
    command: Command,
    /// The status with which a failed check ends it at its first tick.
    failure: Option<u16>,
    source: Spot,
    target: Spot,
    /// The first buffer sector, 0 to 3.
    buffer: usize,
    /// One sector or two.
    sectors: usize,
    first_block: usize,
    last_block: usize,
}

impl Plan {
    /// Whether a running transfer keeps the host out of this word of DataRAM.
    fn takes(&self, word: usize) -> bool {
        if self.failure.is_some() || !self.command.is_transfer() {
            return false;
        }
        let sector = if word < DATA_MAIN { word / SECTOR_MAIN } else { (word - DATA_MAIN) / SECTOR_SPARE };
        if self.sectors == 1 {
            sector == self.buffer
        } else {
            sector / 2 == self.buffer / 2
        }
    }

    /// How many words are moved one way.
    fn words(&self) -> usize {
        self.sectors * if self.command.is_spare() { SECTOR_SPARE } else { SECTOR_WORDS }
    }

    fn ticks(&self) -> usize {
        match self.command {
            Command::CopyBack => 2 * self.words(),
            Command::Erase => 64,
            Command::Verify => BLOCK_PAGES,
            command if command.is_transfer() => self.words(),
            _ => 1,
        }
    }

    /// Whether word `i` of a transfer is of the second sector, and which of its sector's 264 words it is.
    fn split(&self, i: usize) -> (usize, usize) {
        if self.command.is_spare() {
            (i / SECTOR_SPARE, SECTOR_MAIN + i % SECTOR_SPARE)
        } else {
            (i / SECTOR_WORDS, i % SECTOR_WORDS)
        }
    }

    /// The place in DataRAM of word `i` of a transfer.
    fn buffer_word(&self, i: usize) -> usize {
        let (second, word) = self.split(i);
        place(self.buffer ^ second, word, DATA_MAIN)
    }

    /// The place in the page of word `i` of a transfer.
    fn page_word(&self, i: usize, spot: Spot) -> usize {
        let (second, word) = self.split(i);
        place(spot.sector ^ second, word, PAGE_MAIN)
    }
}

/// The place of a sector's word where `main` main words stand before the spare ones.
fn place(sector: usize, word: usize, main: usize) -> usize {
    if word < SECTOR_MAIN {
        sector * SECTOR_MAIN + word
    } else {
        main + sector * SECTOR_SPARE + (word - SECTOR_MAIN)
    }
}

#[derive(Clone, Copy, Debug)]
struct Run {
    plan: Plan,
    /// How many ticks it has had.
    turn: usize,
}

pub struct Chip<A: Array> {
    array: A,
    device: u16,
    version: u16,
    operands: Operands,
    command: u16,    // F220h
    config: u16,     // F221h
    status: u16,     // F240h
    interrupt: u16,  // F241h
    protection: u16, // F24Eh
    boot: [u16; PAGE_WORDS],
    data: [u16; DATA_WORDS],
    locks: [Lock; 256],
    run: Option<Run>,
}

impl<A: Array> Chip<A> {
    pub fn power_up(array: A, device: u16, version: u16) -> Self {
        let mut chip = Chip {
            array,
            device,
            version,
            operands: Operands::default(),
            command: 0,
            config: 0,
            status: 0,
            interrupt: 0,
            protection: 0,
            boot: [BLANK; PAGE_WORDS],
            data: [BLANK; DATA_WORDS],
            locks: [Lock::Locked; 256],
            run: None,
        };
        chip.cold();
        chip
    }

    pub fn into_array(self) -> A {
        self.array
    }

    pub fn read(&self, address: u16) -> Result<u16, Refusal> {
        let word = match address {
            0x0000..=0x01FF => self.boot[usize::from(address)],
            0x8000..=0x800F => self.boot[PAGE_MAIN + usize::from(address - 0x8000)],
            0x0200..=0x05FF | 0x8010..=0x802F => {
                let at = data_place(address);
                if self.is_taken(at) {
                    return Err(Refusal::Taken);
                }
                self.data[at]
            }
            0xF000 => 0x00EC,
            0xF001 => self.device,
            0xF002 => self.version,
            0xF003 => 0x0400,
            0xF004 => 0x0200,
            0xF005 => 0x0201,
            0xF006 => 0x0000,
            0xF100 => self.operands.block,
            0xF102 => self.operands.copy_block,
            0xF103 => self.operands.copy_page,
            0xF107 => self.operands.page,
            0xF200 => self.operands.buffer,
            0xF220 => self.command,
            0xF221 => self.config,
            0xF240 => self.status,
            0xF241 => self.interrupt,
            0xF24C => self.operands.first_block,
            0xF24D => self.operands.last_block,
            0xF24E => self.protection,
            _ => return Err(Refusal::Unassigned),
        };
        Ok(word)
    }

    pub fn write(&mut self, address: u16, word: u16) -> Result<(), Refusal> {
        match address {
            0x0000..=0x01FF | 0x8000..=0x800F | 0xF000..=0xF006 | 0xF240 | 0xF24E => {
                return Err(Refusal::ReadOnly);
            }
            0x0200..=0x05FF | 0x8010..=0x802F => {
                let at = data_place(address);
                if self.is_taken(at) {
                    return Err(Refusal::Taken);
                }
                self.data[at] = word;
            }
            0xF100 => self.operands.block = word & 0x00FF,
            0xF102 => self.operands.copy_block = word & 0x00FF,
            0xF103 => self.operands.copy_page = word & 0x00FD,
            0xF107 => self.operands.page = word & 0x00FD,
            0xF200 => self.operands.buffer = word & 0x0D01,
            0xF220 => self.accept(word)?,
            0xF221 => self.config = word & 0xFFE0,
            0xF241 => self.interrupt &= word,
            0xF24C => self.operands.first_block = word & 0x00FF,
            0xF24D => self.operands.last_block = word & 0x00FF,
            _ => return Err(Refusal::Unassigned),
        }
        Ok(())
    }

    pub fn tick(&mut self) -> Result<Progress, Refusal> {
        let Some(run) = &mut self.run else {
            return Err(Refusal::Idle);
        };
        let turn = run.turn;
        run.turn += 1;
        let plan = &run.plan;
        let command = plan.command;
        if let Some(status) = plan.failure {
            return Ok(self.end(command, status));
        }
        let is_last = turn + 1 == plan.ticks();
        let outcome = match command {
            Command::Load | Command::LoadSpare => load_word(&mut self.array, &mut self.data, plan, turn),
            Command::Program | Command::ProgramSpare => program_word(&mut self.array, &self.data, plan, turn),
            Command::CopyBack => {
                let words = plan.words();
                if turn < words {
                    load_word(&mut self.array, &mut self.data, plan, turn)
                } else {
                    program_word(&mut self.array, &self.data, plan, turn - words)
                }
            }
            Command::Erase if is_last => self.array.erase(plan.source.block),
            Command::Erase => Outcome::Done,
            Command::Verify => verify_page(&mut self.array, plan.source.block, turn),
            Command::Unlock | Command::Lock | Command::LockTight => {
                let count = self.array.count();
                if let Some(word) = protect(&mut self.locks[..count], plan) {
                    self.protection = word;
                }
                Outcome::Done
            }
            // The resets do their work in `end`; an unknown command has failed its check.
            Command::CoreReset | Command::HotReset | Command::Unknown => Outcome::Done,
        };
        match outcome {
            Outcome::Failed => Ok(self.end(command, ERROR | command.kind())),
            Outcome::Done if is_last => Ok(self.end(command, 0)),
            Outcome::Done => Ok(Progress::Running),
        }
    }

    pub fn warm(&mut self) {
        self.start_again();
        self.protection = 0x0002;
        self.locks = [Lock::Locked; 256];
    }

    pub fn cold(&mut self) {
        self.warm();
        self.config = 0x40C0;
        self.interrupt = 0x8080;
        self.data = [BLANK; DATA_WORDS];
        for word in 0..PAGE_WORDS {
            self.boot[word] = self.array.read(0, 0, word);
        }
    }

    fn is_taken(&self, word: usize) -> bool {
        match &self.run {
            Some(run) => run.plan.takes(word),
            None => false,
        }
    }

    /// A write to F220h.
    fn accept(&mut self, word: u16) -> Result<(), Refusal> {
        let command = Command::of(word);
        if let Some(run) = &self.run {
            if !command.is_reset() || run.plan.command.holds_off() {
                return Err(Refusal::Busy);
            }
        }
        if !command.is_reset() && self.interrupt & INT != 0 {
            return Err(Refusal::Pending);
        }
        self.command = word;
        self.status = ON_GO | command.kind();
        self.run = Some(Run { plan: self.plan(command), turn: 0 });
        Ok(())
    }

    fn plan(&self, command: Command) -> Plan {
        let Operands { block, copy_block, copy_page, page, buffer, first_block, last_block } = self.operands;
        let source = Spot::new(block, page);
        let target = if command == Command::CopyBack { Spot::new(copy_block, copy_page) } else { source };
        Plan {
            command,
            failure: self.checked(command, source, target),
            source,
            target,
            buffer: usize::from(buffer >> 10 & 1) * 2 + usize::from(buffer >> 8 & 1),
            sectors: if buffer & 1 == 0 { 2 } else { 1 },
            first_block: usize::from(first_block),
            last_block: usize::from(last_block),
        }
    }

    /// The four checks: the status of the first that fails.
    fn checked(&self, command: Command, source: Spot, target: Spot) -> Option<u16> {
        let transfer = command.is_transfer();
        let on_block = transfer || matches!(command, Command::Erase | Command::Verify);
        let writes = matches!(
            command,
            Command::Program | Command::ProgramSpare | Command::CopyBack | Command::Erase
        );
        let count = self.array.count();
        let error = ERROR | command.kind();
        if command == Command::Unknown {
            Some(error)
        } else if on_block && (source.block >= count || target.block >= count) {
            Some(error)
        } else if transfer && self.operands.buffer & 0x0800 == 0 {
            Some(error | LOCK)
        } else if writes && self.locks[target.block] != Lock::Unlocked {
            Some(error | LOCK)
        } else {
            None
        }
    }

    /// Ends the running command with this status.
    fn end(&mut self, command: Command, status: u16) -> Progress {
        if command == Command::HotReset {
            self.start_again();
        } else {
            self.run = None;
            self.status = status;
            self.interrupt |= command.raised();
        }
        Progress::Ended
    }

    /// What a hot and a warm reset have in common.
    fn start_again(&mut self) {
        self.run = None;
        self.operands = Operands::default();
        self.command = 0;
        self.config = 0x4000 | self.config & 0x00E0;
        self.status = 0;
        self.interrupt = 0x8010;
    }
}

/// The place of an address in DataRAM.
fn data_place(address: u16) -> usize {
    if address < 0x8000 {
        usize::from(address) - 0x0200
    } else {
        DATA_MAIN + usize::from(address) - 0x8010
    }
}

/// Word `i` of a transfer goes from the array into the buffer.
fn load_word<A: Array>(array: &mut A, data: &mut [u16; DATA_WORDS], plan: &Plan, i: usize) -> Outcome {
    let spot = plan.source;
    data[plan.buffer_word(i)] = array.read(spot.block, spot.page, plan.page_word(i, spot));
    Outcome::Done
}

/// Word `i` of a transfer goes from the buffer into the array.
fn program_word<A: Array>(array: &mut A, data: &[u16; DATA_WORDS], plan: &Plan, i: usize) -> Outcome {
    let spot = plan.target;
    array.program(spot.block, spot.page, plan.page_word(i, spot), data[plan.buffer_word(i)])
}

/// Looks whether a page is blank.
fn verify_page<A: Array>(array: &mut A, block: usize, page: usize) -> Outcome {
    for word in 0..PAGE_WORDS {
        if array.read(block, page, word) != BLANK {
            return Outcome::Failed;
        }
    }
    Outcome::Done
}

/// A protection command on the blocks that there are: what F24Eh becomes if it is obeyed.
fn protect(locks: &mut [Lock], plan: &Plan) -> Option<u16> {
    let (first, last) = (plan.first_block, plan.last_block);
    if first > last || last >= locks.len() {
        return None;
    }
    let is_tight = |lock: &Lock| *lock == Lock::Tight;
    let hindered = match plan.command {
        Command::LockTight => locks.iter().any(is_tight),
        _ => locks[first..=last].iter().any(is_tight),
    };
    if hindered {
        return None;
    }
    match plan.command {
        Command::Unlock => {
            for lock in locks.iter_mut().filter(|lock| **lock == Lock::Unlocked) {
                *lock = Lock::Locked;
            }
            locks[first..=last].fill(Lock::Unlocked);
            Some(0x0004)
        }
        Command::Lock => {
            locks[first..=last].fill(Lock::Locked);
            Some(0x0002)
        }
        _ => {
            locks[first..=last].fill(Lock::Tight);
            Some(0x0001)
        }
    }
}
