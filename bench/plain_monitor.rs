// The monitor in plain Rust: the same calls over the same memory as the proved one, without proofs. It trusts the memory to be what
// `open` and earlier calls made of it: so the numbers that a kind of page has no use for are zeros, and need no clearing.
#![forbid(unsafe_code)]

use crate::plain::{Hash, compress_vectors, digest, start};

const HEADER: usize = 256;
const RECORD: usize = 2048;
const WORDS: usize = 1024;
const PLACES: usize = 256;
const SLOTS: usize = 1024;
const REGISTERS: usize = 17;
// the longest answer that the system is told
const LONGEST: usize = 17;

// Indices of the header.
const PAGES: usize = 0;
const OPENS: usize = 1;
const RUNNING: usize = 8;

// Indices of a record: the kind, the cell, two numbers of which each kind has its own, and a list.
const KIND: usize = 0;
const CELL: usize = 1;
const TOP: usize = 2;
const START: usize = 2;
const PHASE: usize = 3;
const UNDER_WAY: usize = 3;
const LIST: usize = 4;

pub mod kind {
    pub const FREE: u64 = 0;
    pub const FIRST: u64 = 1;
    pub const THREAD: u64 = 2;
    pub const TOP: u64 = 3;
    pub const TABLE: u64 = 4;
    pub const HELD: u64 = 5;
    pub const SPARE: u64 = 6;
}

pub mod phase {
    pub const BUILDING: u64 = 0;
    pub const SEALED: u64 = 1;
    pub const STOPPED: u64 = 2;
}

type Record = [u64; RECORD];
type Page = [u32; WORDS];
pub type Registers = [u32; REGISTERS];

// ---- calls and answers

#[derive(Clone, Copy)]
pub struct Place {
    table: u64,
    slot: u64,
    write: bool,
    run: bool,
}

// By the system, up to `Resume`, and then by the cell that runs.
#[derive(Clone, Copy)]
pub enum Call<'a> {
    HowMany,
    NewCell { first: u64, top: u64 },
    NewThread { page: u64, cell: u64, start: u64 },
    NewTable { page: u64, cell: u64, index: u64 },
    Hold { page: u64, cell: u64, place: Place, source: Option<u64> },
    Give { page: u64, cell: u64 },
    Show { open: u64, cell: u64, place: Place },
    Remove { page: u64 },
    Seal { cell: u64 },
    Stop { cell: u64 },
    Enter { thread: u64, numbers: [u64; 3] },
    Resume { thread: u64 },
    Leave { number: u64 },
    Interrupt { registers: &'a [[u8; 8]] },
    Fault { kind: u64 },
    Grow { page: u64, place: Place },
    Shrink { page: u64, place: Place },
    Extend { page: u64, index: u64 },
    Who,
    Draw { number: u64 },
}

// Why a call is refused, or what error a cell is told.
#[derive(Clone, Copy, PartialEq, Eq, Debug)]
pub enum Refusal {
    NoCall = 1,
    OutOfRange = 2,
    NotThere = 3,
    InUse = 4,
    NoCell = 5,
    NotBuilding = 6,
    NotSealed = 7,
    NotVacant = 8,
    PlaceInUse = 9,
    NotStopped = 10,
    UnderWay = 11,
    NotUnderWay = 12,
    Stopped = 13,
    NotNow = 14,
}

use Refusal::*;

#[derive(Clone, Copy, PartialEq, Eq, Debug)]
pub enum Numbers {
    None,
    One(u32),
    Name([u32; 8]),
}

#[derive(Clone, Copy, PartialEq, Eq, Debug)]
pub enum Answer {
    Refused { refusal: Refusal, place: usize },
    Done,
    Number(u64),
    Enters { top: u64, registers: Registers },
    Told { error: Option<Refusal>, numbers: Numbers },
    Left { how: u64, number: u32 },
}

type Taken = Result<Answer, Refusal>;

// ---- bytes

struct Reader<'a> {
    rest: &'a [u8],
    length: usize,
}

impl<'a> Reader<'a> {
    fn bytes(&mut self, count: usize) -> Result<&'a [u8], usize> {
        let (front, rest) = self.rest.split_at_checked(count).ok_or(self.length)?;
        self.rest = rest;
        Ok(front)
    }

    fn numbers<const N: usize>(&mut self) -> Result<[u64; N], usize> {
        let (numbers, _) = self.bytes(8 * N)?.as_chunks();
        Ok(std::array::from_fn(|i| u64::from_le_bytes(numbers[i])))
    }

    // A byte that is at most so large.
    fn byte(&mut self, most: u8) -> Result<u8, usize> {
        match self.rest.split_first() {
            Some((&byte, rest)) if byte <= most => {
                self.rest = rest;
                Ok(byte)
            }
            _ => Err(self.length - self.rest.len()),
        }
    }

    fn place(&mut self) -> Result<Place, usize> {
        let [table, slot] = self.numbers()?;
        let rights = self.byte(3)?;
        Ok(Place { table, slot, write: rights & 1 != 0, run: rights & 2 != 0 })
    }

    fn list(&mut self, most: u8) -> Result<&'a [[u8; 8]], usize> {
        let count = self.byte(most)?;
        Ok(self.bytes(8 * count as usize)?.as_chunks().0)
    }

    fn option(&mut self) -> Result<Option<u64>, usize> {
        Ok(self.list(1)?.first().map(|&number| u64::from_le_bytes(number)))
    }

    fn hold(&mut self) -> Result<Call<'a>, usize> {
        let [page, cell] = self.numbers()?;
        Ok(Call::Hold { page, cell, place: self.place()?, source: self.option()? })
    }

    fn show(&mut self) -> Result<Call<'a>, usize> {
        let [open, cell] = self.numbers()?;
        Ok(Call::Show { open, cell, place: self.place()? })
    }

    fn call(&mut self, number: u8) -> Result<Call<'a>, usize> {
        match number {
            0 => Ok(Call::HowMany),
            1 => self.numbers().map(|[first, top]| Call::NewCell { first, top }),
            2 => self.numbers().map(|[page, cell, start]| Call::NewThread { page, cell, start }),
            3 => self.numbers().map(|[page, cell, index]| Call::NewTable { page, cell, index }),
            4 => self.hold(),
            5 => self.numbers().map(|[page, cell]| Call::Give { page, cell }),
            6 => self.show(),
            7 => self.numbers().map(|[page]| Call::Remove { page }),
            8 => self.numbers().map(|[cell]| Call::Seal { cell }),
            9 => self.numbers().map(|[cell]| Call::Stop { cell }),
            10 => self.numbers().map(|[thread, x, y, z]| Call::Enter { thread, numbers: [x, y, z] }),
            11 => self.numbers().map(|[thread]| Call::Resume { thread }),
            20 => self.numbers().map(|[number]| Call::Leave { number }),
            21 => self.list(255).map(|registers| Call::Interrupt { registers }),
            22 => self.numbers().map(|[kind]| Call::Fault { kind }),
            23 => self.numbers().and_then(|[page]| Ok(Call::Grow { page, place: self.place()? })),
            24 => self.numbers().and_then(|[page]| Ok(Call::Shrink { page, place: self.place()? })),
            25 => self.numbers().map(|[page, index]| Call::Extend { page, index }),
            26 => Ok(Call::Who),
            27 => self.numbers().map(|[number]| Call::Draw { number }),
            _ => Err(0),
        }
    }
}

// The call that bytes are, or the place where they cease to be one.
pub fn read(bytes: &[u8]) -> Result<Call<'_>, usize> {
    let (&number, rest) = bytes.split_first().ok_or(0usize)?;
    let mut reader = Reader { rest, length: bytes.len() };
    let call = reader.call(number)?;
    if reader.rest.is_empty() { Ok(call) } else { Err(reader.length - reader.rest.len()) }
}

fn put<const N: usize>(told: &mut [u8; LONGEST], number: u8, numbers: [u64; N]) -> usize {
    told[0] = number;
    for i in 0..N {
        told[1 + 8 * i..9 + 8 * i].copy_from_slice(&numbers[i].to_le_bytes());
    }
    1 + 8 * N
}

// Writes what the system is told of an answer, and says how many bytes that is.
fn tell(answer: &Answer, told: &mut [u8; LONGEST]) -> usize {
    match *answer {
        Answer::Refused { refusal, place } => put(told, 0, [refusal as u64, place as u64]),
        Answer::Done | Answer::Told { .. } => put(told, 1, []),
        Answer::Number(number) => put(told, 2, [number]),
        Answer::Enters { top, .. } => {
            told[9] = 0;
            put(told, 3, [top]) + 1
        }
        Answer::Left { how, number } => put(told, 5, [how, number as u64]),
    }
}

// ---- small parts

fn check(holds: bool, refusal: Refusal) -> Result<(), Refusal> {
    if holds { Ok(()) } else { Err(refusal) }
}

fn word(number: u64) -> Result<u32, Refusal> {
    u32::try_from(number).map_err(|_| OutOfRange)
}

fn seventeen(numbers: &[[u8; 8]]) -> Result<Registers, Refusal> {
    let numbers: &[[u8; 8]; REGISTERS] = numbers.try_into().map_err(|_| OutOfRange)?;
    let mut registers = [0; REGISTERS];
    for (register, &number) in registers.iter_mut().zip(numbers) {
        *register = word(u64::from_le_bytes(number))?;
    }
    Ok(registers)
}

impl Place {
    fn in_range(self) -> bool {
        self.table < PLACES as u64 && self.slot < SLOTS as u64
    }

    // The word that is measured of a place in range.
    fn word(self) -> u32 {
        (self.table as u32) << 22 | (self.slot as u32) << 12 | (self.run as u32) << 2 | (self.write as u32) << 1 | 1
    }
}

// How many numbers of a record a kind of page has a use for.
fn used(kind: u64) -> usize {
    match kind {
        kind::FREE => 0,
        kind::FIRST => LIST + 9,
        kind::THREAD => LIST + REGISTERS,
        kind::TOP => LIST + PLACES,
        kind::TABLE => LIST + SLOTS,
        _ => LIST,
    }
}

fn hash_in(cell: &Record) -> Hash {
    let word = |i: usize| cell[LIST + 1 + i] as u32;
    Hash { a: word(0), b: word(1), c: word(2), d: word(3), e: word(4), f: word(5), g: word(6), h: word(7) }
}

fn put_hash(cell: &mut Record, blocks: u64, s: Hash) {
    cell[LIST] = blocks;
    for (number, word) in cell[LIST + 1..LIST + 9].iter_mut().zip([s.a, s.b, s.c, s.d, s.e, s.f, s.g, s.h]) {
        *number = word as u64;
    }
}

// Two words, filled with zeros to a block, are measured, and then the blocks of contents.
fn measure(cell: &mut Record, words: [u32; 2], contents: &[u32]) {
    let mut block = [0; 16];
    block[..2].copy_from_slice(&words);
    let (blocks, _) = contents.as_chunks::<16>();
    let hash = compress_vectors(hash_in(cell), &block);
    let hash = blocks.iter().fold(hash, |hash, block| compress_vectors(hash, block));
    put_hash(cell, cell[LIST].wrapping_add(1 + blocks.len() as u64), hash);
}

fn told(result: Result<(), Refusal>) -> Taken {
    Ok(Answer::Told { error: result.err(), numbers: Numbers::None })
}

// ---- the monitor

struct Monitor<'a> {
    running: &'a mut u64,
    records: &'a mut [Record],
    closed: &'a mut [Page],
    open: &'a [Page],
}

// Where a slot is: its table's page, and the index in that page's record.
type Slot = (usize, usize);

// The thread that runs, and its cell.
struct Caller {
    thread: usize,
    cell: usize,
}

impl Monitor<'_> {
    fn take(&mut self, call: Call) -> Taken {
        match call {
            Call::HowMany => self.how_many(),
            Call::NewCell { first, top } => self.new_cell(first, top),
            Call::NewThread { page, cell, start } => self.new_thread(page, cell, start),
            Call::NewTable { page, cell, index } => self.new_table(page, cell, index),
            Call::Hold { page, cell, place, source } => self.hold(page, cell, place, source),
            Call::Give { page, cell } => self.give(page, cell),
            Call::Show { open, cell, place } => self.show(open, cell, place),
            Call::Remove { page } => self.remove(page),
            Call::Seal { cell } => self.seal(cell),
            Call::Stop { cell } => self.stop(cell),
            Call::Enter { thread, numbers } => self.enter(thread, numbers),
            Call::Resume { thread } => self.resume(thread),
            Call::Leave { number } => self.leave(number),
            Call::Interrupt { registers } => self.interrupt(registers),
            Call::Fault { kind } => self.fault(kind),
            Call::Grow { page, place } => told(self.grow(self.caller()?.cell, page, place)),
            Call::Shrink { page, place } => told(self.shrink(self.caller()?.cell, page, place)),
            Call::Extend { page, index } => told(self.extend(self.caller()?.cell, page, index)),
            Call::Who => self.who(),
            Call::Draw { number } => self.draw(number),
        }
    }

    // ---- what is there, or why not

    fn idle(&self) -> Result<(), Refusal> {
        check(*self.running == 0, NotNow)
    }

    fn caller(&self) -> Result<Caller, Refusal> {
        let thread = self.running.checked_sub(1).ok_or(NotNow)? as usize;
        Ok(Caller { thread, cell: self.records[thread][CELL] as usize })
    }

    // A page that is there, and its kind.
    fn page(&self, page: u64) -> Result<(usize, u64), Refusal> {
        let page = page as usize;
        let record = self.records.get(page).ok_or(NotThere)?;
        Ok((page, record[KIND]))
    }

    fn free_page(&self, page: u64) -> Result<usize, Refusal> {
        let (page, kind) = self.page(page)?;
        check(kind == kind::FREE, InUse)?;
        Ok(page)
    }

    fn open_page(&self, page: u64) -> Result<usize, Refusal> {
        check(page < self.open.len() as u64, NotThere)?;
        Ok(page as usize)
    }

    // A cell, and how far it is.
    fn cell(&self, cell: u64) -> Result<(usize, u64), Refusal> {
        match self.page(cell) {
            Ok((cell, kind::FIRST)) => Ok((cell, self.records[cell][PHASE])),
            _ => Err(NoCell),
        }
    }

    fn cell_that_is_built(&self, cell: u64) -> Result<usize, Refusal> {
        let (cell, phase) = self.cell(cell)?;
        check(phase == phase::BUILDING, NotBuilding)?;
        Ok(cell)
    }

    // A page of that kind that is a cell's own.
    fn own(&self, cell: usize, page: u64, kind: u64) -> Result<usize, Refusal> {
        let (page, found) = self.page(page)?;
        check(found == kind && self.records[page][CELL] == cell as u64, NotThere)?;
        Ok(page)
    }

    // A thread of a sealed cell, and whether it is under way.
    fn thread(&self, thread: u64) -> Result<(usize, bool), Refusal> {
        let (thread, kind) = self.page(thread)?;
        check(kind == kind::THREAD, NotThere)?;
        let record = &self.records[thread];
        check(self.records[record[CELL] as usize][PHASE] == phase::SEALED, NotSealed)?;
        Ok((thread, record[UNDER_WAY] != 0))
    }

    // What a cell's top table has at a place: a table's page + 1, or 0.
    fn table(&mut self, cell: usize, index: usize) -> &mut u64 {
        let top = self.records[cell][TOP] as usize;
        &mut self.records[top][LIST + index]
    }

    fn slot(&self, cell: usize, place: Place) -> Option<Slot> {
        if !place.in_range() {
            return None;
        }
        let top = self.records[cell][TOP] as usize;
        let table = self.records[top][LIST + place.table as usize].checked_sub(1)?;
        Some((table as usize, LIST + place.slot as usize))
    }

    // A slot with nothing in it.
    fn vacant(&self, cell: usize, place: Place) -> Result<Slot, Refusal> {
        let slot = self.slot(cell, place).ok_or(NotVacant)?;
        check(self.records[slot.0][slot.1] == 0, NotVacant)?;
        Ok(slot)
    }

    fn has_parts(&self, cell: usize) -> bool {
        self.records.iter().any(|record| record[KIND] > kind::FIRST && record[CELL] == cell as u64)
    }

    // ---- what is written

    // A page that was free or spare or held becomes a cell's, of that kind.
    fn becomes(&mut self, page: usize, kind: u64, cell: usize) {
        self.records[page][KIND] = kind;
        self.records[page][CELL] = cell as u64;
    }

    fn becomes_held(&mut self, page: usize, cell: usize, slot: Slot, place: Place) {
        self.becomes(page, kind::HELD, cell);
        self.records[slot.0][slot.1] = (page as u64) << 4 | (place.run as u64) << 3 | (place.write as u64) << 2 | 1;
    }

    fn becomes_table(&mut self, page: usize, cell: usize, index: usize) {
        self.becomes(page, kind::TABLE, cell);
        *self.table(cell, index) = page as u64 + 1;
    }

    fn runs(&mut self, thread: usize, registers: Registers) -> Answer {
        *self.running = thread as u64 + 1;
        let cell = self.records[thread][CELL] as usize;
        Answer::Enters { top: self.records[cell][TOP], registers }
    }

    fn ends(&mut self, thread: usize, under_way: bool, registers: Registers) {
        *self.running = 0;
        let record = &mut self.records[thread];
        record[UNDER_WAY] = under_way as u64;
        for (number, register) in record[LIST..LIST + REGISTERS].iter_mut().zip(registers) {
            *number = register as u64;
        }
    }

    // ---- calls by the system

    fn how_many(&self) -> Taken {
        self.idle()?;
        Ok(Answer::Number(self.records.len() as u64))
    }

    fn new_cell(&mut self, first: u64, top: u64) -> Taken {
        self.idle()?;
        let (cell, kind) = self.page(first)?;
        let (page, kind_of_top) = self.page(top)?;
        check(cell != page, NotThere)?;
        check(kind == kind::FREE && kind_of_top == kind::FREE, InUse)?;
        self.becomes(page, kind::TOP, cell);
        let record = &mut self.records[cell];
        record[KIND] = kind::FIRST;
        record[TOP] = top;
        put_hash(record, 0, start());
        Ok(Answer::Done)
    }

    fn new_thread(&mut self, page: u64, cell: u64, start: u64) -> Taken {
        let start = word(start)?;
        self.idle()?;
        let (cell, phase) = self.cell(cell)?;
        let page = self.free_page(page)?;
        check(phase != phase::STOPPED, Stopped)?;
        check(phase != phase::SEALED, NotBuilding)?;
        self.becomes(page, kind::THREAD, cell);
        self.records[page][START] = start as u64;
        measure(&mut self.records[cell], [2, start], &[]);
        Ok(Answer::Done)
    }

    fn new_table(&mut self, page: u64, cell: u64, index: u64) -> Taken {
        self.idle()?;
        check(index < PLACES as u64, NotVacant)?;
        let (cell, phase) = self.cell(cell)?;
        check(phase != phase::STOPPED, Stopped)?;
        check(*self.table(cell, index as usize) == 0, PlaceInUse)?;
        let page = self.free_page(page)?;
        check(phase != phase::SEALED, NotBuilding)?;
        self.becomes_table(page, cell, index as usize);
        Ok(Answer::Done)
    }

    fn hold(&mut self, page: u64, cell: u64, place: Place, source: Option<u64>) -> Taken {
        check(place.in_range(), OutOfRange)?;
        self.idle()?;
        let cell = self.cell_that_is_built(cell)?;
        let slot = self.vacant(cell, place)?;
        let source = source.map(|open| self.open_page(open)).transpose()?;
        let page = self.free_page(page)?;
        match source {
            Some(open) => self.closed[page].copy_from_slice(&self.open[open]),
            None => self.closed[page].fill(0),
        }
        self.becomes_held(page, cell, slot, place);
        measure(&mut self.records[cell], [4, place.word()], &self.closed[page]);
        Ok(Answer::Done)
    }

    fn give(&mut self, page: u64, cell: u64) -> Taken {
        self.idle()?;
        let (cell, phase) = self.cell(cell)?;
        let page = self.free_page(page)?;
        check(phase != phase::STOPPED, Stopped)?;
        self.becomes(page, kind::SPARE, cell);
        Ok(Answer::Done)
    }

    fn show(&mut self, open: u64, cell: u64, place: Place) -> Taken {
        check(place.in_range(), OutOfRange)?;
        self.idle()?;
        let cell = self.cell_that_is_built(cell)?;
        let slot = self.vacant(cell, place)?;
        let open = self.open_page(open)?;
        self.records[slot.0][slot.1] = (open as u64) << 4 | (place.write as u64) << 2 | 2;
        Ok(Answer::Done)
    }

    fn remove(&mut self, page: u64) -> Taken {
        self.idle()?;
        let (page, kind) = self.page(page)?;
        match kind {
            kind::FREE => {}
            kind::FIRST => check(!self.has_parts(page), InUse)?,
            _ => self.may_go(page, kind)?,
        }
        self.records[page][..used(kind)].fill(0);
        Ok(Answer::Done)
    }

    // Whether a part of a cell may be taken from it.
    fn may_go(&self, page: usize, kind: u64) -> Result<(), Refusal> {
        let cell = self.records[page][CELL] as usize;
        match self.records[cell][PHASE] {
            phase::STOPPED => Ok(()),
            phase::SEALED => check(kind == kind::SPARE, NotStopped),
            _ => Err(NotStopped),
        }
    }

    fn seal(&mut self, cell: u64) -> Taken {
        self.idle()?;
        let cell = self.cell_that_is_built(cell)?;
        self.records[cell][PHASE] = phase::SEALED;
        Ok(Answer::Done)
    }

    fn stop(&mut self, cell: u64) -> Taken {
        self.idle()?;
        let (cell, _) = self.cell(cell)?;
        self.records[cell][PHASE] = phase::STOPPED;
        Ok(Answer::Done)
    }

    fn enter(&mut self, thread: u64, [x, y, z]: [u64; 3]) -> Taken {
        let numbers = [word(x)?, word(y)?, word(z)?];
        self.idle()?;
        let (thread, under_way) = self.thread(thread)?;
        check(!under_way, UnderWay)?;
        let mut registers = [0; REGISTERS];
        registers[..3].copy_from_slice(&numbers);
        registers[15] = self.records[thread][START] as u32;
        Ok(self.runs(thread, registers))
    }

    fn resume(&mut self, thread: u64) -> Taken {
        self.idle()?;
        let (thread, under_way) = self.thread(thread)?;
        check(under_way, NotUnderWay)?;
        let record = &self.records[thread];
        let registers = std::array::from_fn(|i| record[LIST + i] as u32);
        Ok(self.runs(thread, registers))
    }

    // ---- calls by a cell

    fn leave(&mut self, number: u64) -> Taken {
        let number = word(number)?;
        let caller = self.caller()?;
        self.ends(caller.thread, false, [0; REGISTERS]);
        Ok(Answer::Left { how: 0, number })
    }

    fn interrupt(&mut self, registers: &[[u8; 8]]) -> Taken {
        let registers = seventeen(registers)?;
        let caller = self.caller()?;
        self.ends(caller.thread, true, registers);
        Ok(Answer::Left { how: 1, number: 0 })
    }

    fn fault(&mut self, kind: u64) -> Taken {
        let number = word(kind)?;
        let caller = self.caller()?;
        self.ends(caller.thread, false, [0; REGISTERS]);
        Ok(Answer::Left { how: 2, number })
    }

    fn grow(&mut self, cell: usize, page: u64, place: Place) -> Result<(), Refusal> {
        let page = self.own(cell, page, kind::SPARE)?;
        let slot = self.vacant(cell, place)?;
        self.closed[page].fill(0);
        self.becomes_held(page, cell, slot, place);
        Ok(())
    }

    fn shrink(&mut self, cell: usize, page: u64, place: Place) -> Result<(), Refusal> {
        let page = self.own(cell, page, kind::HELD)?;
        let (table, index) = self.slot(cell, place).ok_or(NotVacant)?;
        let number = self.records[table][index];
        check(number & 3 == 1 && number >> 4 == page as u64, NotVacant)?;
        self.records[table][index] = 0;
        self.becomes(page, kind::SPARE, cell);
        Ok(())
    }

    fn extend(&mut self, cell: usize, page: u64, index: u64) -> Result<(), Refusal> {
        check(index < PLACES as u64, NotVacant)?;
        let page = self.own(cell, page, kind::SPARE)?;
        check(*self.table(cell, index as usize) == 0, PlaceInUse)?;
        self.becomes_table(page, cell, index as usize);
        Ok(())
    }

    fn who(&self) -> Taken {
        let cell = &self.records[self.caller()?.cell];
        let name = digest(compress_vectors, hash_in(cell), cell[LIST]);
        Ok(Answer::Told { error: None, numbers: Numbers::Name(name) })
    }

    fn draw(&self, number: u64) -> Taken {
        let number = word(number)?;
        self.caller()?;
        Ok(Answer::Told { error: None, numbers: Numbers::One(number) })
    }
}

// ---- from outside

// Whether limits are in range, and the lengths of slices fit them.
fn fits(closed_pages: u64, open_pages: u64, memory: usize, closed: usize, open: usize) -> bool {
    (2..=4096).contains(&closed_pages)
        && open_pages <= 1 << 20
        && memory == HEADER + RECORD * closed_pages as usize
        && closed == WORDS * closed_pages as usize
        && open == WORDS * open_pages as usize
}

// Lays out the memory of a monitor whose pages are all free; false, with nothing written, where limits or lengths don't fit.
pub fn open(closed_pages: u64, open_pages: u64, memory: &mut [u64], closed: &[u32], open: &[u32]) -> bool {
    if !fits(closed_pages, open_pages, memory.len(), closed.len(), open.len()) {
        return false;
    }
    memory.fill(0);
    memory[PAGES] = closed_pages;
    memory[OPENS] = open_pages;
    true
}

// Takes a call, or refuses it: the answer is for the machine, and how many bytes of `told` are for the system. None, with nothing
// changed, where `told` is shorter than 17 bytes or lengths don't fit.
pub fn call(memory: &mut [u64], closed: &mut [u32], open: &[u32], bytes: &[u8], told: &mut [u8]) -> Option<(Answer, usize)> {
    let told = told.first_chunk_mut()?;
    let length = memory.len();
    let (header, records) = memory.split_first_chunk_mut::<HEADER>()?;
    if !fits(header[PAGES], header[OPENS], length, closed.len(), open.len()) {
        return None;
    }
    let records = records.as_chunks_mut().0;
    let (closed, open) = (closed.as_chunks_mut().0, open.as_chunks().0);
    let mut monitor = Monitor { running: &mut header[RUNNING], records, closed, open };
    let answer = match read(bytes) {
        Ok(call) => monitor.take(call).unwrap_or_else(|refusal| Answer::Refused { refusal, place: 0 }),
        Err(place) => Answer::Refused { refusal: NoCall, place },
    };
    let length = tell(&answer, told);
    Some((answer, length))
}
