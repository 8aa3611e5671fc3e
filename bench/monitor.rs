// Plays calls on the proved monitor and on the same one in plain Rust, compares the two after each call, and then times each call.
// Compiled with `--cfg plain_only` it has the plain monitor on both sides, to try this program without the proved one.
#[allow(dead_code)]
mod plain;
mod plain_monitor;

use plain_monitor::phase::{BUILDING, SEALED, STOPPED};
use plain_monitor::{Answer, Numbers, Refusal, kind};
use std::hint::black_box;
use std::time::{Duration, Instant};

const ROUNDS: usize = 4;
const TURNS: usize = 5;
const TURN: Duration = Duration::from_millis(1);
const SIZES: [u64; 3] = [16, 256, 4096];
const OPENS: u64 = 4;

// ---- the two monitors, which are called alike

type Entry = fn(&mut [u64], &mut [u32], &[u32], &[u8], &mut [u8]) -> usize;

#[cfg(not(plain_only))]
mod proved {
    #[rustfmt::skip]
    unsafe extern "C" {
        fn monitor_open(
            closed_pages: u64, open_pages: u64, memory: *mut u64, memory_len: usize, closed: *const u32, closed_len: usize,
            open: *const u32, open_len: usize,
        ) -> bool;
        fn monitor_call(
            memory: *mut u64, memory_len: usize, closed: *mut u32, closed_len: usize, open: *const u32, open_len: usize,
            bytes: *const u8, bytes_len: usize, told: *mut u8, told_len: usize,
        ) -> usize;
    }

    pub fn open(closed_pages: u64, open_pages: u64, memory: &mut [u64], closed: &[u32], open: &[u32]) -> bool {
        let (m, c, o) = (memory.as_mut_ptr(), closed.as_ptr(), open.as_ptr());
        unsafe { monitor_open(closed_pages, open_pages, m, memory.len(), c, closed.len(), o, open.len()) }
    }

    pub fn call(memory: &mut [u64], closed: &mut [u32], open: &[u32], bytes: &[u8], told: &mut [u8]) -> usize {
        let (m, c, o) = (memory.as_mut_ptr(), closed.as_mut_ptr(), open.as_ptr());
        let (b, t) = (bytes.as_ptr(), told.as_mut_ptr());
        unsafe { monitor_call(m, memory.len(), c, closed.len(), o, open.len(), b, bytes.len(), t, told.len()) }
    }
}

#[cfg(plain_only)]
mod proved {
    pub(crate) use crate::plain_call as call;
    pub(crate) use crate::plain_monitor::open;
}

// The answer for the machine is dropped, as it is by the proved monitor's function for C.
fn plain_call(memory: &mut [u64], closed: &mut [u32], open: &[u32], bytes: &[u8], told: &mut [u8]) -> usize {
    plain_monitor::call(memory, closed, open, bytes, told).map_or(0, |(_, length)| length)
}

// What is left of the loop around a call when the call does nothing.
fn no_call(_: &mut [u64], _: &mut [u32], _: &[u32], _: &[u8], _: &mut [u8]) -> usize {
    0
}

// ---- the bytes of calls

const HOW_MANY: u8 = 0;
const NEW_CELL: u8 = 1;
const NEW_THREAD: u8 = 2;
const NEW_TABLE: u8 = 3;
const HOLD: u8 = 4;
const GIVE: u8 = 5;
const SHOW: u8 = 6;
const REMOVE: u8 = 7;
const SEAL: u8 = 8;
const STOP: u8 = 9;
const ENTER: u8 = 10;
const RESUME: u8 = 11;
const LEAVE: u8 = 20;
const INTERRUPT: u8 = 21;
const FAULT: u8 = 22;
const GROW: u8 = 23;
const SHRINK: u8 = 24;
const EXTEND: u8 = 25;
const WHO: u8 = 26;
const DRAW: u8 = 27;

const READ: u8 = 0;
const WRITE: u8 = 1;

#[derive(Clone)]
struct Bytes(Vec<u8>);

impl Bytes {
    fn numbers(mut self, numbers: &[u64]) -> Bytes {
        self.0.extend(numbers.iter().flat_map(|number| number.to_le_bytes()));
        self
    }

    fn at(self, table: u64, slot: u64, rights: u8) -> Bytes {
        let mut place = self.numbers(&[table, slot]);
        place.0.push(rights);
        place
    }

    fn list(mut self, numbers: &[u64]) -> Bytes {
        self.0.push(numbers.len() as u8);
        self.numbers(numbers)
    }
}

fn call(number: u8, numbers: &[u64]) -> Bytes {
    Bytes(vec![number]).numbers(numbers)
}

// ---- both monitors side by side

struct Side {
    memory: &'static mut [u64],
    closed: &'static mut [u32],
    told: [u8; 24],
    length: usize,
}

struct Pair {
    proved: Side,
    plain: Side,
    open: Vec<u32>,
}

// Begins at a multiple of 4 KiB, so that both sides lie alike in the caches. It is never given back.
fn aligned<T: Clone>(value: T, length: usize) -> &'static mut [T] {
    let all = vec![value; length + 4096].leak();
    let skipped = all.as_ptr().align_offset(4096);
    &mut all[skipped..skipped + length]
}

fn first_difference<T: PartialEq>(a: &[T], b: &[T]) -> Option<usize> {
    if a == b { None } else { a.iter().zip(b).position(|(x, y)| x != y) }
}

impl Side {
    // Closed pages have something in them from the start, so that zeros are seen to be written.
    fn new(closed_pages: u64) -> Side {
        let pages = closed_pages as usize;
        Side { memory: aligned(7, 256 + 2048 * pages), closed: aligned(7, 1024 * pages), told: [0; 24], length: 0 }
    }
}

impl Pair {
    fn new(closed_pages: u64, open_pages: u64) -> Pair {
        let open = (0..1024 * open_pages as u32).map(|i| i.wrapping_mul(0x85eb_ca6b) ^ 0x1234_5678).collect();
        let mut pair = Pair { proved: Side::new(closed_pages), plain: Side::new(closed_pages), open };
        pair.opened(closed_pages, open_pages);
        pair
    }

    fn opened(&mut self, closed_pages: u64, open_pages: u64) {
        let (proved, plain) = (&mut self.proved, &mut self.plain);
        let both = proved::open(closed_pages, open_pages, proved.memory, proved.closed, &self.open)
            && plain_monitor::open(closed_pages, open_pages, plain.memory, plain.closed, &self.open);
        assert!(both, "a monitor isn't opened with {closed_pages} closed pages and {open_pages} open ones");
    }

    // Makes a call on both sides, and gives the plain one's answer.
    fn play(&mut self, bytes: &[u8]) -> Answer {
        for side in [&mut self.proved, &mut self.plain] {
            side.told = [0xaa; 24];
        }
        let (proved, plain) = (&mut self.proved, &mut self.plain);
        proved.length = proved::call(proved.memory, proved.closed, &self.open, bytes, &mut proved.told);
        let answered = plain_monitor::call(plain.memory, plain.closed, &self.open, bytes, &mut plain.told);
        let (answer, length) = answered.expect("lengths that fit");
        plain.length = length;
        answer
    }

    // What is not alike on the two sides, the proved one's first.
    fn differs(&self) -> Option<String> {
        let (a, b) = (&self.proved, &self.plain);
        if a.length != b.length || a.told != b.told {
            return Some(format!("the system is told {} of {:?}, and {} of {:?}", a.length, a.told, b.length, b.told));
        }
        if let Some(i) = first_difference(a.memory, b.memory) {
            return Some(format!("the memory at {i} is {}, and {}", a.memory[i], b.memory[i]));
        }
        let i = first_difference(a.closed, b.closed)?;
        Some(format!("word {} of closed page {} is {}, and {}", i % 1024, i / 1024, a.closed[i], b.closed[i]))
    }
}

// ---- both agree

fn fail(what: &str) -> ! {
    eprintln!("the proved monitor and the plain one differ: {what}");
    std::process::exit(1)
}

// How often each call was taken, and each refusal answered, and each error told.
#[derive(Default)]
struct Tally {
    calls: usize,
    taken: [usize; 28],
    refused: [usize; 15],
    told: [usize; 15],
}

impl Tally {
    fn count(&mut self, bytes: &[u8], answer: Answer) {
        self.calls += 1;
        match answer {
            Answer::Refused { refusal, .. } => self.refused[refusal as usize] += 1,
            Answer::Told { error: Some(error), .. } => self.told[error as usize] += 1,
            _ => self.taken[bytes[0] as usize] += 1,
        }
    }

    fn show(&self) {
        let sum = |counts: &[usize]| counts.iter().sum::<usize>();
        println!(
            "both agree on {} calls: {} taken, {} refused, {} told an error",
            self.calls,
            sum(&self.taken),
            sum(&self.refused),
            sum(&self.told)
        );
    }

    // Calls that were to be met, and weren't, would be a fault of the calls that are played.
    fn assert_all_met(&self) {
        assert_eq!((0..12).chain(20..28).find(|&i| self.taken[i] == 0), None, "a call that was never taken");
        assert_eq!((1..15).find(|&i| self.refused[i] == 0), None, "a refusal that was never answered");
        assert_eq!([3, 8, 9].into_iter().find(|&i| self.told[i] == 0), None, "an error that was never told");
    }
}

fn compare(pair: &mut Pair, tally: &mut Tally, bytes: &[u8]) -> Answer {
    let answer = pair.play(bytes);
    if let Some(what) = pair.differs() {
        fail(&format!("call {}, {bytes:?}, which the plain one answers by {answer:?}: {what}", tally.calls));
    }
    tally.count(bytes, answer);
    answer
}

fn refused(refusal: Refusal) -> Answer {
    Answer::Refused { refusal, place: 0 }
}

fn told(error: Option<Refusal>) -> Answer {
    Answer::Told { error, numbers: Numbers::None }
}

fn enters(numbers: [u32; 3]) -> Answer {
    let [x, y, z] = numbers;
    Answer::Enters { top: 1, registers: [x, y, z, 0, 0, 0, 0, 0, 0, 0, 0, 0, 0, 0, 0, 4096, 0] }
}

// One cell, from its making to its end.
fn one_cell() -> Vec<(Bytes, Answer)> {
    use Answer::{Done, Left};
    use Refusal::*;
    let counted: Vec<u64> = (0..17).collect();
    let mut rows = vec![
        (call(NEW_CELL, &[0, 1]), Done),
        (call(NEW_CELL, &[0, 2]), refused(InUse)),
        (call(NEW_THREAD, &[2, 0, 4096]), Done),
        (call(HOLD, &[3, 0]).at(0, 1, READ).list(&[]), refused(NotVacant)),
        (call(NEW_TABLE, &[4, 0, 0]), Done),
        (call(HOLD, &[3, 0]).at(0, 1, WRITE).list(&[2]), Done),
        (call(HOLD, &[5, 0]).at(0, 1, READ).list(&[]), refused(NotVacant)),
        (call(SHOW, &[1, 0]).at(0, 2, WRITE), Done),
        (call(ENTER, &[2, 0, 0, 0]), refused(NotSealed)),
        (call(SEAL, &[0]), Done),
        (call(SEAL, &[0]), refused(NotBuilding)),
        (call(HOLD, &[5, 0]).at(0, 3, READ).list(&[]), refused(NotBuilding)),
        (call(GIVE, &[5, 0]), Done),
        (call(REMOVE, &[3]), refused(NotStopped)),
        (call(ENTER, &[2, 7, 8, 9]), enters([7, 8, 9])),
        (call(HOW_MANY, &[]), refused(NotNow)),
        (call(GROW, &[5]).at(0, 1, WRITE), told(Some(NotVacant))),
        (call(GROW, &[5]).at(0, 3, WRITE), told(None)),
        (call(INTERRUPT, &[]).list(&counted), Left { how: 1, number: 0 }),
        (call(ENTER, &[2, 0, 0, 0]), refused(UnderWay)),
        (call(RESUME, &[2]), Answer::Enters { top: 1, registers: std::array::from_fn(|i| i as u32) }),
        (call(SHRINK, &[5]).at(0, 1, READ), told(Some(NotVacant))),
        (call(SHRINK, &[5]).at(0, 3, READ), told(None)),
        (call(EXTEND, &[5, 1]), told(None)),
        (call(LEAVE, &[42]), Left { how: 0, number: 42 }),
        (call(LEAVE, &[42]), refused(NotNow)),
        (call(REMOVE, &[5]), refused(NotStopped)),
        (call(STOP, &[0]), Done),
        (call(ENTER, &[2, 0, 0, 0]), refused(NotSealed)),
        (call(REMOVE, &[0]), refused(InUse)),
    ];
    rows.extend([1, 2, 3, 4, 5, 0].map(|page| (call(REMOVE, &[page]), Done)));
    rows
}

// A cell in which nothing but a thread was made asks for its name.
fn one_name() -> Vec<(Bytes, Answer)> {
    #[rustfmt::skip]
    let name = [
        2_679_725_656, 1_180_564_849, 4_218_349_236, 3_221_858_598, 1_795_978_103, 3_783_897_963, 2_335_176_584, 2_333_515_072,
    ];
    vec![
        (call(NEW_CELL, &[0, 1]), Answer::Done),
        (call(NEW_THREAD, &[2, 0, 4096]), Answer::Done),
        (call(SEAL, &[0]), Answer::Done),
        (call(ENTER, &[2, 0, 0, 0]), enters([0; 3])),
        (call(WHO, &[]), Answer::Told { error: None, numbers: Numbers::Name(name) }),
        (call(LEAVE, &[0]), Answer::Left { how: 0, number: 0 }),
    ]
}

fn play_table(tally: &mut Tally, rows: &[(Bytes, Answer)]) {
    let mut pair = Pair::new(6, 3);
    for (bytes, expected) in rows {
        let answer = compare(&mut pair, tally, &bytes.0);
        assert_eq!(answer, *expected, "the plain one's answer to {:?}", bytes.0);
    }
}

// Slices that are too short are refused.
fn play_lengths() {
    let mut pair = Pair::new(6, 3);
    let bytes = call(HOW_MANY, &[]).0;
    for (memory, closed, open, told) in [(1, 0, 0, 0), (0, 1, 0, 0), (0, 0, 1, 0), (0, 0, 0, 1)] {
        for (entry, side) in [(proved::call as Entry, &mut pair.proved), (plain_call as Entry, &mut pair.plain)] {
            let m = &mut side.memory[..256 + 2048 * 6 - memory];
            let c = &mut side.closed[..1024 * 6 - closed];
            if entry(m, c, &pair.open[..1024 * 3 - open], &bytes, &mut side.told[..17 - told]) != 0 {
                fail(&format!("slices shorter by {memory}, {closed}, {open} and {told} are not refused by both"));
            }
        }
    }
}

// ---- calls by chance, most of which are taken

struct Chance(u64);

impl Chance {
    fn next(&mut self) -> u64 {
        self.0 ^= self.0 << 13;
        self.0 ^= self.0 >> 7;
        self.0 ^= self.0 << 17;
        self.0.wrapping_mul(0x2545_f491_4f6c_dd1d)
    }

    fn below(&mut self, n: u64) -> u64 {
        (self.next() >> 32) % n
    }

    fn one_in(&mut self, n: u64) -> bool {
        self.below(n) == 0
    }

    fn of<T: Copy>(&mut self, all: &[T]) -> T {
        all[self.below(all.len() as u64) as usize]
    }
}

// Each as often as it is to be made.
#[rustfmt::skip]
const BY_SYSTEM: [u8; 32] = [
    HOW_MANY, NEW_CELL, NEW_CELL, NEW_THREAD, NEW_THREAD, NEW_TABLE, NEW_TABLE, NEW_TABLE,
    HOLD, HOLD, HOLD, HOLD, HOLD, GIVE, GIVE, SHOW, SHOW, REMOVE, REMOVE, REMOVE, REMOVE, REMOVE, REMOVE, REMOVE,
    SEAL, STOP, ENTER, ENTER, ENTER, ENTER, RESUME, RESUME,
];
#[rustfmt::skip]
const BY_CELL: [u8; 16] = [
    LEAVE, INTERRUPT, INTERRUPT, FAULT, GROW, GROW, GROW, GROW, SHRINK, SHRINK, SHRINK, SHRINK, EXTEND, WHO, DRAW, DRAW,
];

// Chooses calls by what the memory says: pages of the kind that a call asks for, and now and then any number.
struct Chooser<'a> {
    chance: &'a mut Chance,
    memory: &'a [u64],
    // a page was asked for of which there is none
    missed: bool,
    // a call with several things wrong, most likely
    careless: bool,
}

impl Chooser<'_> {
    fn stray(&mut self) -> u64 {
        let pages = self.memory[0];
        let near = self.chance.below(pages);
        self.chance.of(&[near, pages, OPENS, 255, 256, 1023, 1024, 1 << 32, (1 << 32) - 1, 1 << 60, u64::MAX])
    }

    // One in so many where care is taken, and often where not.
    fn lapse(&mut self, n: u64) -> bool {
        self.chance.one_in(if self.careless { 3 } else { n })
    }

    fn or_stray(&mut self, number: u64) -> u64 {
        if self.lapse(64) { self.stray() } else { number }
    }

    fn record(&self, page: u64) -> &[u64] {
        &self.memory[(256 + 2048 * page) as usize..]
    }

    // A page whose record is such a one if there is one.
    fn page(&mut self, is: impl Fn(&Self, &[u64]) -> bool) -> u64 {
        let pages = self.memory[0];
        let first = self.chance.below(pages);
        let found = (first..first + pages).map(|page| page % pages).find(|&page| is(self, self.record(page)));
        self.missed |= found.is_none();
        self.or_stray(found.unwrap_or(first))
    }

    fn free(&mut self) -> u64 {
        self.page(|_, record| record[0] == kind::FREE)
    }

    // How far the cell is that a page belongs to.
    fn phase(&self, record: &[u64]) -> Option<u64> {
        match record[0] {
            kind::FREE => None,
            kind::FIRST => Some(record[3]),
            _ => Some(self.record(record[1])[3]),
        }
    }

    // The cell that runs.
    fn runs(&self) -> Option<u64> {
        let thread = self.memory[8].checked_sub(1)?;
        Some(self.record(thread)[1])
    }

    // A cell that is so far, or any.
    fn cell(&mut self, phase: u64) -> u64 {
        let any = self.lapse(16);
        self.page(|all, record| record[0] == kind::FIRST && (any || all.phase(record) == Some(phase)))
    }

    // A thread of a sealed cell that is under way or not, or any.
    fn thread(&mut self, under_way: u64) -> u64 {
        let any = self.lapse(16);
        self.page(|all, record| record[0] == kind::THREAD && (any || all.phase(record) == Some(SEALED) && record[3] == under_way))
    }

    // A page of the cell that runs, or of any.
    fn own(&mut self, kind: u64) -> u64 {
        let any = self.lapse(16);
        self.page(|all, record| record[0] == kind && (any || all.runs() == Some(record[1])))
    }

    // A page of a stopped cell, or any.
    fn leftover(&mut self) -> u64 {
        let any = self.lapse(8);
        self.page(|all, record| any || all.phase(record) == Some(STOPPED))
    }

    fn word(&mut self) -> u64 {
        let word = self.chance.next() >> 32;
        self.or_stray(word)
    }

    fn index(&mut self) -> u64 {
        let index = self.chance.below(2);
        self.or_stray(index)
    }

    fn open_page(&mut self) -> u64 {
        let open = self.chance.below(OPENS);
        self.or_stray(open)
    }

    fn at(&mut self, call: Bytes) -> Bytes {
        let slot = self.chance.below(3);
        let rights = self.chance.below(if self.careless { 6 } else { 4 });
        call.at(self.index(), self.or_stray(slot), rights as u8)
    }

    fn source(&mut self, call: Bytes) -> Bytes {
        let count = self.chance.below(if self.careless { 3 } else { 2 });
        call.list(&(0..count).map(|_| self.open_page()).collect::<Vec<_>>())
    }

    fn registers(&mut self, call: Bytes) -> Bytes {
        let count = if self.lapse(32) { self.chance.below(256) } else { 17 };
        let mut registers: Vec<u64> = (0..count).map(|_| self.chance.next() >> 32).collect();
        if let Some(first) = registers.first_mut() {
            *first = self.or_stray(*first);
        }
        call.list(&registers)
    }

    fn number(&mut self) -> u8 {
        let runs = self.memory[8] != 0;
        if runs != self.lapse(32) { self.chance.of(&BY_CELL) } else { self.chance.of(&BY_SYSTEM) }
    }

    fn numbers(&mut self, number: u8) -> Vec<u64> {
        match number {
            NEW_CELL => vec![self.free(), self.free()],
            NEW_THREAD => vec![self.free(), self.cell(BUILDING), self.word()],
            NEW_TABLE => vec![self.free(), self.cell(BUILDING), self.index()],
            HOLD => vec![self.free(), self.cell(BUILDING)],
            GIVE => vec![self.free(), self.cell(SEALED)],
            SHOW => vec![self.open_page(), self.cell(BUILDING)],
            REMOVE => vec![self.leftover()],
            SEAL => vec![self.cell(BUILDING)],
            STOP => vec![self.cell(SEALED)],
            ENTER => vec![self.thread(0), self.word(), self.word(), self.word()],
            RESUME => vec![self.thread(1)],
            LEAVE | FAULT | DRAW => vec![self.word()],
            GROW => vec![self.own(kind::SPARE)],
            SHRINK => vec![self.own(kind::HELD)],
            EXTEND => vec![self.own(kind::SPARE), self.index()],
            _ => vec![],
        }
    }

    // Bytes of a call with something wrong in them.
    fn garbled(&mut self, mut bytes: Vec<u8>) -> Vec<u8> {
        let place = self.chance.below(bytes.len() as u64) as usize;
        match self.chance.below(3) {
            0 => bytes.truncate(place),
            1 => bytes.push(0),
            _ => bytes[place] = self.chance.below(256) as u8,
        }
        bytes
    }

    fn some_call(&mut self) -> Bytes {
        let number = self.number();
        let begun = call(number, &self.numbers(number));
        match number {
            SHOW | GROW | SHRINK => self.at(begun),
            HOLD => {
                let placed = self.at(begun);
                self.source(placed)
            }
            INTERRUPT => self.registers(begun),
            _ => begun,
        }
    }

    // Where pages are missed another call is tried, but not always.
    fn call(&mut self) -> Vec<u8> {
        self.careless = self.chance.one_in(8);
        let mut call = self.some_call();
        while self.missed && !self.lapse(16) {
            self.missed = false;
            call = self.some_call();
        }
        if self.chance.one_in(32) { self.garbled(call.0) } else { call.0 }
    }
}

// Calls by chance, and between them somebody writes a word of a closed page.
fn play_chance(tally: &mut Tally, closed_pages: u64, calls: usize) {
    let mut pair = Pair::new(closed_pages, OPENS);
    let mut chance = Chance(closed_pages + 1);
    for _ in 0..calls {
        let bytes = Chooser { chance: &mut chance, memory: pair.plain.memory, missed: false, careless: false }.call();
        compare(&mut pair, tally, &bytes);
        let (place, word) = (chance.below(1024 * closed_pages) as usize, chance.next() as u32);
        pair.proved.closed[place] = word;
        pair.plain.closed[place] = word;
    }
}

fn agree() {
    let mut tally = Tally::default();
    play_lengths();
    play_table(&mut tally, &one_cell());
    play_table(&mut tally, &one_name());
    for (closed_pages, calls) in [(2, 500), (8, 5_000), (16, 10_000), (64, 5_000)] {
        play_chance(&mut tally, closed_pages, calls);
    }
    tally.show();
    tally.assert_all_met();
}

// ---- times
//
// Each call is timed alone, again and again from one state, which other calls made. After each time the numbers that the call changed
// are written back into the memory; which ones these are is found by comparing it before and after one call. What the loop and the
// writing back take by themselves, timed with a call that does nothing, is taken off. So caches are warm, and branches are foreseen.

struct Row {
    number: u8,
    name: &'static str,
    before: Vec<Bytes>,
    call: Bytes,
}

fn after(before: &[Bytes], more: &[Bytes]) -> Vec<Bytes> {
    [before, more].concat()
}

// Every call, some of them in several ways. The cell has pages 0 to 4, and 5 as a spare one.
#[rustfmt::skip]
fn rows() -> Vec<Row> {
    let empty = vec![];
    let built = vec![call(NEW_CELL, &[0, 1]), call(NEW_TABLE, &[2, 0, 0]), call(NEW_THREAD, &[3, 0, 4096])];
    let held = after(&built, &[call(HOLD, &[4, 0]).at(0, 1, WRITE).list(&[2])]);
    let sealed = after(&held, &[call(GIVE, &[5, 0]), call(SEAL, &[0])]);
    let running = after(&sealed, &[call(ENTER, &[3, 7, 8, 9])]);
    let interrupt = call(INTERRUPT, &[]).list(&[11; 17]);
    let under_way = after(&running, &[interrupt.clone()]);
    let grown = after(&running, &[call(GROW, &[5]).at(0, 3, WRITE)]);
    let stopped = after(&sealed, &[call(STOP, &[0])]);
    let alone = after(&stopped, &[1, 2, 3, 4, 5].map(|page| call(REMOVE, &[page])));
    let row = |name, before: &Vec<Bytes>, call: Bytes| Row { number: call.0[0], name, before: before.clone(), call };
    vec![
        row("how many", &empty, call(HOW_MANY, &[])),
        row("new cell", &empty, call(NEW_CELL, &[0, 1])),
        row("new thread", &built, call(NEW_THREAD, &[4, 0, 4096])),
        row("new table", &built, call(NEW_TABLE, &[4, 0, 1])),
        row("hold, zeros", &built, call(HOLD, &[4, 0]).at(0, 1, WRITE).list(&[])),
        row("hold, a copy", &built, call(HOLD, &[4, 0]).at(0, 1, WRITE).list(&[2])),
        row("give", &sealed, call(GIVE, &[6, 0])),
        row("show", &built, call(SHOW, &[1, 0]).at(0, 2, WRITE)),
        row("remove, a spare page", &sealed, call(REMOVE, &[5])),
        row("remove, a table", &stopped, call(REMOVE, &[2])),
        row("remove, a first page", &alone, call(REMOVE, &[0])),
        row("seal", &held, call(SEAL, &[0])),
        row("stop", &sealed, call(STOP, &[0])),
        row("enter", &sealed, call(ENTER, &[3, 7, 8, 9])),
        row("resume", &under_way, call(RESUME, &[3])),
        row("leave", &running, call(LEAVE, &[42])),
        row("interrupt", &running, interrupt),
        row("fault", &running, call(FAULT, &[3])),
        row("grow", &running, call(GROW, &[5]).at(0, 3, WRITE)),
        row("shrink", &grown, call(SHRINK, &[5]).at(0, 3, READ)),
        row("extend", &running, call(EXTEND, &[5, 1])),
        row("who am I", &running, call(WHO, &[])),
        row("draw", &running, call(DRAW, &[6])),
    ]
}

type Undoing = Vec<(usize, u64)>;

fn undo(memory: &mut [u64], undoing: &Undoing) {
    for &(index, number) in undoing {
        memory[index] = number;
    }
}

impl Pair {
    fn taken(&mut self, bytes: &[u8]) {
        let answer = self.play(bytes);
        let turned_away = matches!(answer, Answer::Refused { .. } | Answer::Told { error: Some(_), .. });
        assert!(!turned_away, "{bytes:?} is answered by {answer:?}");
    }

    // Both sides in the state before a row's call, and what undoes the call.
    fn prepared(&mut self, row: &Row) -> Undoing {
        self.opened(self.plain.memory[0], OPENS);
        row.before.iter().for_each(|call| self.taken(&call.0));
        let before = self.plain.memory.to_vec();
        self.taken(&row.call.0);
        if let Some(what) = self.differs() {
            fail(&format!("{}: {what}", row.name));
        }
        let changed = before.iter().zip(&*self.plain.memory).enumerate().filter(|(_, (old, new))| old != new);
        let undoing = changed.map(|(index, (old, _))| (index, *old)).collect();
        undo(self.proved.memory, &undoing);
        undo(self.plain.memory, &undoing);
        undoing
    }
}

fn timed(entry: Entry, side: &mut Side, open: &[u32], bytes: &[u8], undoing: &Undoing, times: u32) -> Duration {
    let entry = black_box(entry);
    let mut told = [0; 24];
    let begun = Instant::now();
    for _ in 0..times {
        black_box(entry(side.memory, side.closed, open, black_box(bytes), &mut told));
        undo(side.memory, undoing);
    }
    begun.elapsed()
}

// The nanoseconds of a row's call and of its undoing, by the proved monitor, by the plain one and by none.
#[derive(Clone, Copy)]
struct Best {
    proved: f64,
    plain: f64,
    none: f64,
}

impl Best {
    const NO_TURN_YET: Best = Best { proved: f64::MAX, plain: f64::MAX, none: f64::MAX };

    // Some turns, which they take one after the other.
    fn turns(&mut self, pair: &mut Pair, row: &Row) {
        let undoing = pair.prepared(row);
        let (open, bytes) = (&pair.open[..], &row.call.0[..]);
        let mut times = 8;
        while timed(proved::call, &mut pair.proved, open, bytes, &undoing, times) < TURN {
            times *= 2;
        }
        let turn = |entry, side: &mut Side| timed(entry, side, open, bytes, &undoing, times).as_secs_f64() * 1e9 / times as f64;
        for _ in 0..TURNS {
            self.proved = self.proved.min(turn(proved::call, &mut pair.proved));
            self.plain = self.plain.min(turn(plain_call, &mut pair.plain));
            self.none = self.none.min(turn(no_call, &mut pair.plain));
        }
    }

    fn proved(self) -> f64 {
        self.proved - self.none
    }

    fn plain(self) -> f64 {
        self.plain - self.none
    }
}

// The best of several rounds over all rows, since others may keep the processor busy for a while.
fn best_of_rounds(rows: &[Row], closed_pages: u64) -> Vec<Best> {
    let mut pair = Pair::new(closed_pages, OPENS);
    let mut best = vec![Best::NO_TURN_YET; rows.len()];
    for _ in 0..ROUNDS {
        for (best, row) in best.iter_mut().zip(rows) {
            best.turns(&mut pair, row);
        }
    }
    best
}

fn show_times() {
    let rows = rows();
    let [small, middle, large] = SIZES;
    let [at_small, at_middle, at_large] = SIZES.map(|closed_pages| best_of_rounds(&rows, closed_pages));
    println!("nanoseconds of a call, bytes in and out, best of {} turns", ROUNDS * TURNS);
    println!("{:<28}{:^32}{:^30}", "", format!("{middle} closed pages"), "proved, by closed pages");
    println!("{:<28}{:>9}{:>9}{:>14}{small:>10}{middle:>10}{large:>10}", "call", "proved", "plain", "proved/plain");
    for (i, row) in rows.iter().enumerate() {
        let (proved, plain) = (at_middle[i].proved(), at_middle[i].plain());
        print!("{:>3} {:<24}{proved:>9.1}{plain:>9.1}{:>14.2}", row.number, row.name, proved / plain);
        println!("{:>10.1}{proved:>10.1}{:>10.1}", at_small[i].proved(), at_large[i].proved());
    }
}

fn main() {
    if cfg!(plain_only) {
        println!("the plain monitor on both sides");
    }
    agree();
    show_times();
}
