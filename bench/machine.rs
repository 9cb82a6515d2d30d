//! A plain Rust machine: the same events on the same words as the proved one, one event a turn, for
//! any number of threads over one list of words. It trusts its input and checks nothing.
//!
//!     machine run                     real threads over atomic words, printed by threads
//!     machine serial                  the turns of each thread in turn, on plain words
//!     machine replay robin|serial|KEY TURNS      a schedule, printed in order
//!     machine make KEY LINES | machine trial KEY LINES
//!     machine draw KEY THREADS LINES  a job of version 2 with all of its commands
//!     machine measure [serial]        as run or serial, but prints turns, units and waits, and the
//!                                     most turns of a command by the blocks that it asks for, and
//!                                     of an idle by its units
//!     machine worst CYCLES            the most turns of an allocation of 1 block and more, and of
//!                                     each other command, in a job that is made for the worst, of
//!                                     this header (bench/worst.rs)

use std::cell::Cell;
use std::collections::BTreeMap;
use std::hint;
use std::io::{self, Read, Write};
use std::process::ExitCode;
use std::sync::atomic::{AtomicU64, Ordering::SeqCst};
use std::thread;

mod worst;

const REGISTERS: usize = 16;
const RANGE: u64 = 8;
const CLOSED: u64 = 512;
const SWEEP: u64 = 256;
const CYCLE: u64 = 1024;
const FREE: u64 = 0;
const GREY: u64 = 3;

#[derive(Clone, Copy, PartialEq)]
enum Command {
    New { d: u8, fields: u32 },
    Arr { d: u8, elements: u32 },
    Set { d: u8, value: u64 },
    Nil { d: u8 },
    Mov { d: u8, s: u8 },
    Get { d: u8, s: u8, i: u64 },
    Put { s: u8, v: u8, i: u64 },
    Len { s: u8 },
    Same { a: u8, b: u8 },
    Say { s: u8 },
    Swap { s: u8, v: u8, i: u64 },
    Cas { s: u8, a: u8, v: u8, i: u64 },
    Idle { units: u64 },
}

/// A name is a thread and a serial.
#[derive(Clone, Copy)]
enum Reply {
    New(u32, u32),
    Full(u64),
    Stored,
    Nil,
    Int(u64),
    Ref(u32, u32),
    Len(u64),
    Yes,
    No,
    Null,
    Kind,
    Range,
    Idle,
}

#[derive(Clone, Copy)]
struct Entry {
    reply: Reply,
    work: u64,
}

/// An item of an order: the start of a cycle, or the next entry of a thread.
#[derive(Clone, Copy)]
enum Item {
    Start,
    Entry(u8),
}

#[derive(Clone, Copy)]
struct Config {
    width: usize,
    threads: usize,
    blocks: usize,
    live: usize,
    object: usize,
    shared: usize,
}

impl Config {
    fn register_blocks(&self) -> usize {
        blocks_of_array(self.width, REGISTERS)
    }

    fn root(&self, thread: usize) -> usize {
        self.register_blocks() * thread + 1
    }

    fn opening_blocks(&self) -> usize {
        self.register_blocks() * self.threads + blocks_of_array(self.width, self.shared)
    }

    fn rate(&self) -> u64 {
        let (m, extra) = (self.blocks as u64, self.threads as u64 * self.object as u64);
        (1..=2 * m)
            .find(|&p| self.live as u64 + 2 * ((2 * m).div_ceil(p) + extra) <= m)
            .expect("the configuration has a rate")
    }

    fn grey_list(&self, thread: usize) -> usize {
        3 + thread
    }

    fn free_list(&self, thread: usize) -> usize {
        3 + self.threads + thread
    }

    fn colour(&self, block: usize) -> usize {
        3 + 2 * self.threads + (self.width + 3) * (block - 1)
    }

    fn payload(&self, block: usize, j: usize) -> usize {
        self.colour(block) + 3 + j
    }

    fn words(&self) -> usize {
        self.colour(self.blocks + 1)
    }
}

fn blocks_of_record(width: usize, fields: usize) -> usize {
    fields.div_ceil(width - 1).max(1)
}

fn blocks_of_array(width: usize, elements: usize) -> usize {
    let mut level = elements.div_ceil(width).max(1);
    let mut blocks = level;
    while level > 1 {
        level = level.div_ceil(width);
        blocks += level;
    }
    blocks
}

impl Command {
    fn blocks(&self, width: usize) -> usize {
        match *self {
            Command::New { fields, .. } => blocks_of_record(width, fields as usize),
            Command::Arr { elements, .. } => blocks_of_array(width, elements as usize),
            _ => 0,
        }
    }

    fn word(&self) -> &'static str {
        match *self {
            Command::New { .. } => "new",
            Command::Arr { .. } => "arr",
            Command::Set { .. } => "set",
            Command::Nil { .. } => "nil",
            Command::Mov { .. } => "mov",
            Command::Get { .. } => "get",
            Command::Put { .. } => "put",
            Command::Len { .. } => "len",
            Command::Same { .. } => "same",
            Command::Say { .. } => "say",
            Command::Swap { .. } => "swap",
            Command::Cas { .. } => "cas",
            Command::Idle { .. } => "idle",
        }
    }

    // The units that it is told to make.
    fn told(&self) -> u64 {
        match *self {
            Command::Idle { units } => units,
            _ => 0,
        }
    }
}

fn is_reference(word: u64) -> bool {
    word != 0 && word & 1 == 0
}

/// The word of a Live colour: black in cycle c has the parity of c.
fn live(cycle: u64) -> u64 {
    1 + (cycle & 1)
}

/// A word of the heap: plain for turns on one thread, atomic for real threads.
trait Word {
    fn new(word: u64) -> Self;
    fn load(&self) -> u64;
    fn exchange(&self, new: u64) -> u64;
    fn compare_exchange(&self, old: u64, new: u64) -> u64;
    fn add(&self, by: u64);
    fn subtract(&self, by: u64);
}

impl Word for Cell<u64> {
    fn new(word: u64) -> Self {
        Cell::new(word)
    }

    fn load(&self) -> u64 {
        self.get()
    }

    fn exchange(&self, new: u64) -> u64 {
        self.replace(new)
    }

    fn compare_exchange(&self, old: u64, new: u64) -> u64 {
        let word = self.get();
        if word == old {
            self.set(new);
        }
        word
    }

    fn add(&self, by: u64) {
        self.set(self.get() + by);
    }

    fn subtract(&self, by: u64) {
        self.set(self.get() - by);
    }
}

impl Word for AtomicU64 {
    fn new(word: u64) -> Self {
        AtomicU64::new(word)
    }

    fn load(&self) -> u64 {
        AtomicU64::load(self, SeqCst)
    }

    fn exchange(&self, new: u64) -> u64 {
        self.swap(new, SeqCst)
    }

    fn compare_exchange(&self, old: u64, new: u64) -> u64 {
        match AtomicU64::compare_exchange(self, old, new, SeqCst, SeqCst) {
            Ok(word) | Err(word) => word,
        }
    }

    fn add(&self, by: u64) {
        self.fetch_add(by, SeqCst);
    }

    fn subtract(&self, by: u64) {
        self.fetch_sub(by, SeqCst);
    }
}

struct Heap<W> {
    config: Config,
    rate: u64,
    words: Vec<W>,
}

impl<W: Word> Heap<W> {
    fn open(config: Config) -> Heap<W> {
        let mut words = vec![0u64; config.words()];
        let (root, first) = (config.opening_blocks(), config.opening_blocks() + 1);
        words[0] = CYCLE;
        words[1] = config.blocks as u64 + 1;
        words[2] = (config.blocks - root) as u64;
        words[config.free_list(0)] = first as u64;
        for t in 0..config.threads {
            words[config.grey_list(t)] = config.root(t) as u64;
            lay_array(&config, &mut words, config.root(t), t as u64, REGISTERS);
            words[config.colour(config.root(t))] = GREY;
            let (block, slot) = register(&config, t, 0);
            words[config.payload(block, slot)] =
                2 * (config.register_blocks() * config.threads + 1) as u64;
        }
        let shared = config.register_blocks() * config.threads + 1;
        lay_array(&config, &mut words, shared, config.threads as u64, config.shared);
        for x in first..=config.blocks {
            let next = if x < config.blocks { x + 1 } else { 0 };
            words[config.colour(x)] = 8 * next as u64 + FREE;
        }
        Heap {
            config,
            rate: config.rate(),
            words: words.into_iter().map(W::new).collect(),
        }
    }

    fn load(&self, place: usize) -> u64 {
        self.words[place].load()
    }

    fn exchange(&self, place: usize, new: u64) -> u64 {
        self.words[place].exchange(new)
    }

    fn compare_exchange(&self, place: usize, old: u64, new: u64) -> u64 {
        self.words[place].compare_exchange(old, new)
    }
}

// White in cycle 1, with its links, owners and shapes.
fn lay_array(config: &Config, words: &mut [u64], first: usize, thread: u64, elements: usize) {
    for ordinal in 0..blocks_of_array(config.width, elements) {
        let at = config.colour(first + ordinal);
        words[at] = live(0);
        words[at + 1] = (thread << 40) + ordinal as u64;
        words[at + 2] = 2 * elements as u64 + 1;
        for j in 0..config.width {
            let child = child_of(config.width, elements, ordinal, j);
            words[at + 3 + j] = child.map_or(0, |o| 2 * (first + o) as u64);
        }
    }
}

fn register(config: &Config, thread: usize, r: usize) -> (usize, usize) {
    (config.root(thread) + 1 + r / config.width, r % config.width)
}

/// Ordinals go level by level from the root.
fn child_of(width: usize, elements: usize, ordinal: usize, j: usize) -> Option<usize> {
    let (mut sizes, mut count) = ([0; 20], 1);
    sizes[0] = elements.div_ceil(width).max(1);
    while sizes[count - 1] > 1 {
        sizes[count] = sizes[count - 1].div_ceil(width);
        count += 1;
    }
    let mut start = 0;
    for level in (1..count).rev() {
        let below = start + sizes[level];
        if ordinal < below {
            let child = (ordinal - start) * width + j;
            return (child < sizes[level - 1]).then_some(below + child);
        }
        start = below;
    }
    None
}

/// The way to a field: a payload for each link to follow, and the last payload.
#[derive(Clone, Copy)]
struct TreePath {
    links: u64,
    last: u64,
    // For an array, the power of the width of the first link; 0 for a record.
    power: u64,
    index: u64,
}

fn way_to(width: u64, shape: u64, i: u64) -> TreePath {
    if shape & 1 == 0 {
        let (links, last) = (i / (width - 1), 1 + i % (width - 1));
        return TreePath { links, last, power: 0, index: i };
    }
    let (mut level, mut links, mut power) = ((shape / 2).div_ceil(width).max(1), 0, 1);
    while level > 1 {
        level = level.div_ceil(width);
        links += 1;
        power *= width;
    }
    TreePath { links, last: i % width, power, index: i }
}

#[derive(Clone, Copy, PartialEq)]
enum Row {
    Rest,
    Look,
    Enter { seen: u64 },
    Leave,
    CloseLook,
    Close { seen: u64 },
    CheckList { u: usize },
    SetCursor,
    Flip,
    Reopen,
    ShadeRoot { u: usize },
    PutRoots,
    Start,
    Take { u: usize },
    Pop,
    Scan { j: usize },
    Shade { j: usize, y: usize },
    Blacken,
    PutGrey,
    ReadCursor,
    Claim { q: u64, r: u64 },
    Pass,
    TakeOwnFree,
    Free,
    PutFree,
    Credit,
    ReadCount,
    Reserve { seen: u64 },
    TakeFree { u: usize },
    Collect,
    PutRest,
    Write { ordinal: usize, k: usize },
    Publish,
    LoadOperand,
    LoadOther,
    LoadShape,
    LoadExpected,
    LoadValue,
    Walk,
    LoadField,
    LoadOwner,
    ShadeTake,
    ShadeTarget,
    ShadePut,
    Store,
    ExchangeField,
    CompareField,
    IdleLook,
}

#[derive(Clone, Copy, PartialEq)]
enum Turn {
    Went,
    Waited,
    Done,
}

struct Mutator {
    thread: usize,
    trace: Vec<Command>,
    log: Vec<Entry>,
    row: Row,
    // Of the pass: its cycle, its phase, and whether it found nothing to do.
    cycle: u64,
    sweep: bool,
    nothing: bool,
    replied: bool,
    hand: usize,
    block: usize,
    end: u64,
    freed: u64,
    held: Vec<usize>,
    way: TreePath,
    loaded: u64,
    second: u64,
    expected: u64,
    place: usize,
    // The row behind the barrier.
    behind: Row,
    paid: u64,
    owed: u64,
    serial: u32,
    turns: u64,
    waits: u64,
    // Of the command in hand: the blocks that it asks for, and the turns before it.
    blocks: usize,
    turns_before: u64,
    // The most turns of a command that asks for so many blocks, and of an idle of so many units.
    most_turns: Vec<u64>,
    most_idle: BTreeMap<u64, u64>,
}

impl Mutator {
    fn new(thread: usize, trace: Vec<Command>) -> Mutator {
        Mutator {
            thread,
            log: Vec::with_capacity(trace.len()),
            trace,
            row: Row::Rest,
            cycle: 1,
            sweep: false,
            nothing: false,
            replied: false,
            hand: 0,
            block: 0,
            end: 0,
            freed: 0,
            held: Vec::new(),
            way: TreePath { links: 0, last: 0, power: 0, index: 0 },
            loaded: 0,
            second: 0,
            expected: 0,
            place: 0,
            behind: Row::Store,
            paid: 0,
            owed: 0,
            serial: 0,
            turns: 0,
            waits: 0,
            blocks: 0,
            turns_before: 0,
            most_turns: Vec::new(),
            most_idle: BTreeMap::new(),
        }
    }

    fn done(&self) -> bool {
        self.row == Row::Rest && self.log.len() == self.trace.len()
    }

    fn command(&self) -> Command {
        self.trace[self.log.len()]
    }

    // The row behind a won entry.
    fn first_row(&mut self, heap: &Heap<impl Word>, phase: u64) -> Row {
        (self.cycle, self.sweep) = (phase / CYCLE, phase & SWEEP != 0);
        (self.hand, self.nothing, self.freed) = (0, false, 0);
        if self.paid < self.owed {
            return if self.sweep { Row::ReadCursor } else { Row::Take { u: 0 } };
        }
        let first = match self.command() {
            Command::New { .. } | Command::Arr { .. } => return Row::ReadCount,
            Command::Set { d, value } => return self.store_in(heap, d, 2 * value + 1),
            Command::Nil { d } => return self.store_in(heap, d, 0),
            Command::Idle { .. } => return Row::IdleLook,
            Command::Mov { s, .. } | Command::Len { s } | Command::Say { s } => s,
            Command::Get { s, .. } | Command::Put { s, .. } => s,
            Command::Swap { s, .. } | Command::Cas { s, .. } => s,
            Command::Same { a, .. } => a,
        };
        self.place = self.register(heap, first);
        Row::LoadOperand
    }

    fn register(&self, heap: &Heap<impl Word>, r: u8) -> usize {
        let (block, slot) = register(&heap.config, self.thread, r as usize);
        heap.config.payload(block, slot)
    }

    fn store_in(&mut self, heap: &Heap<impl Word>, r: u8, word: u64) -> Row {
        (self.place, self.loaded) = (self.register(heap, r), word);
        Row::Store
    }

    fn answer(&mut self, reply: Reply) -> Row {
        self.log.push(Entry { reply, work: self.paid });
        (self.paid, self.replied) = (0, true);
        Row::Leave
    }

    fn decide(&self, order: &mut impl FnMut(Item)) {
        order(Item::Entry(self.thread as u8));
    }

    // A command needs the object to which a register refers.
    fn object(&mut self, word: u64, order: &mut impl FnMut(Item)) -> Option<Row> {
        if is_reference(word) {
            self.block = (word / 2) as usize;
            return None;
        }
        self.decide(order);
        Some(self.answer(if word == 0 { Reply::Null } else { Reply::Kind }))
    }

    // The barrier goes before a store of a reference in Mark.
    fn barrier(&mut self, word: u64, store: Row) -> Row {
        if self.sweep || !is_reference(word) {
            return store;
        }
        self.behind = store;
        Row::ShadeTake
    }

    // What is done when a thread has left.
    fn after_leave(&mut self) -> Row {
        if self.replied {
            self.replied = false;
            Row::Rest
        } else if self.nothing {
            Row::CloseLook
        } else {
            Row::Look
        }
    }

    /// Makes one event.
    fn turn(&mut self, heap: &Heap<impl Word>, order: &mut impl FnMut(Item)) -> Turn {
        if self.row == Row::Rest {
            if self.log.len() == self.trace.len() {
                return Turn::Done;
            }
            self.blocks = self.command().blocks(heap.config.width);
            self.owed = heap.rate * self.blocks as u64 + self.command().told();
            self.row = Row::Look;
            self.turns_before = self.turns;
        }
        self.turns += 1;
        let (row, turn) = self.event(heap, order);
        self.row = row;
        if turn == Turn::Waited {
            self.waits += 1;
        }
        if row == Row::Rest {
            self.measure_turns(self.turns - self.turns_before);
        }
        turn
    }

    // Of the command that was just ended.
    fn measure_turns(&mut self, turns: u64) {
        let most = if self.blocks == 0 && self.owed > 0 {
            self.most_idle.entry(self.owed).or_default()
        } else {
            if self.most_turns.len() <= self.blocks {
                self.most_turns.resize(self.blocks + 1, 0);
            }
            &mut self.most_turns[self.blocks]
        };
        *most = turns.max(*most);
    }

    fn event(&mut self, heap: &Heap<impl Word>, order: &mut impl FnMut(Item)) -> (Row, Turn) {
        use Row::*;

        let config = &heap.config;
        let next = match self.row {
            Rest | Look => {
                let word = heap.load(0);
                if word & CLOSED != 0 {
                    return (Look, Turn::Waited);
                }
                Enter { seen: word }
            }
            Enter { seen } => {
                if heap.compare_exchange(0, seen, seen + 1) != seen {
                    return (Look, Turn::Waited);
                }
                self.first_row(heap, seen)
            }
            Leave => {
                heap.words[0].subtract(1);
                self.after_leave()
            }
            CloseLook => {
                let word = heap.load(0);
                if word / CYCLE != self.cycle || (word & SWEEP != 0) != self.sweep {
                    Look
                } else if word & (CYCLE - 1) & !SWEEP != 0 {
                    return (Look, Turn::Waited);
                } else {
                    Close { seen: word }
                }
            }
            Close { seen } => {
                if heap.compare_exchange(0, seen, seen | CLOSED) != seen {
                    return (Look, Turn::Waited);
                }
                self.hand = 0;
                if self.sweep { ShadeRoot { u: 0 } } else { CheckList { u: 0 } }
            }
            CheckList { u } => {
                if heap.load(config.grey_list(u)) != 0 {
                    Reopen
                } else if u + 1 < config.threads {
                    CheckList { u: u + 1 }
                } else {
                    SetCursor
                }
            }
            SetCursor => {
                heap.exchange(1, 1);
                Flip
            }
            Flip => {
                heap.exchange(0, self.cycle * CYCLE + SWEEP);
                Look
            }
            Reopen => {
                heap.exchange(0, self.cycle * CYCLE);
                Look
            }
            ShadeRoot { u } => {
                let root = config.root(u);
                heap.exchange(config.colour(root), 8 * self.hand as u64 + GREY);
                self.hand = root;
                if u + 1 < config.threads { ShadeRoot { u: u + 1 } } else { PutRoots }
            }
            PutRoots => {
                heap.exchange(config.grey_list(self.thread), self.hand as u64);
                Start
            }
            Start => {
                heap.exchange(0, (self.cycle + 1) * CYCLE);
                order(Item::Start);
                Look
            }
            Take { .. } | Pop | Scan { .. } | Shade { .. } | Blacken | PutGrey => self.mark(heap),
            ReadCursor | Claim { .. } | Pass | TakeOwnFree | Free | PutFree | Credit => {
                return self.sweep(heap);
            }
            ReadCount | Reserve { .. } | TakeFree { .. } | Collect | PutRest | Write { .. }
            | Publish => return self.build(heap, order),
            _ => self.field(heap, order),
        };
        (next, Turn::Went)
    }

    fn mark(&mut self, heap: &Heap<impl Word>) -> Row {
        use Row::*;

        let config = &heap.config;
        let after = |j: usize| if j + 1 < config.width { Scan { j: j + 1 } } else { Blacken };
        match self.row {
            Take { u } => {
                let list = (self.thread + u) % config.threads;
                self.hand = heap.exchange(config.grey_list(list), 0) as usize;
                if self.hand != 0 {
                    Pop
                } else if u + 1 < config.threads {
                    Take { u: u + 1 }
                } else {
                    self.nothing = true;
                    Leave
                }
            }
            Pop => {
                self.block = self.hand;
                self.hand = (heap.load(config.colour(self.block)) / 8) as usize;
                Scan { j: 0 }
            }
            Scan { j } => {
                let word = heap.load(config.payload(self.block, j));
                if is_reference(word) {
                    Shade { j, y: (word / 2) as usize }
                } else {
                    after(j)
                }
            }
            Shade { j, y } => {
                self.shade(heap, y);
                after(j)
            }
            Blacken => {
                heap.exchange(config.colour(self.block), live(self.cycle));
                self.paid += 1;
                if self.hand != 0 { PutGrey } else { Leave }
            }
            _ => {
                heap.exchange(config.grey_list(self.thread), self.hand as u64);
                Leave
            }
        }
    }

    fn shade(&mut self, heap: &Heap<impl Word>, y: usize) {
        let white = live(self.cycle + 1);
        let grey = 8 * self.hand as u64 + GREY;
        if heap.compare_exchange(heap.config.colour(y), white, grey) == white {
            self.hand = y;
        }
    }

    // The row behind a block of the range that was passed.
    fn next_block(&mut self) -> Row {
        self.block += 1;
        if (self.block as u64) < self.end {
            Row::Pass
        } else if self.freed > 0 {
            Row::PutFree
        } else {
            Row::Leave
        }
    }

    fn sweep(&mut self, heap: &Heap<impl Word>) -> (Row, Turn) {
        use Row::*;

        let config = &heap.config;
        let next = match self.row {
            ReadCursor => {
                let q = heap.load(1);
                if q > config.blocks as u64 {
                    self.nothing = true;
                    Leave
                } else {
                    let left = config.blocks as u64 + 1 - q;
                    Claim { q, r: RANGE.min(left).min(self.owed - self.paid) }
                }
            }
            Claim { q, r } => {
                if heap.compare_exchange(1, q, q + r) != q {
                    return (ReadCursor, Turn::Waited);
                }
                (self.block, self.end) = (q as usize, q + r);
                Pass
            }
            Pass => {
                if heap.load(config.colour(self.block)) != live(self.cycle + 1) {
                    self.paid += 1;
                    self.next_block()
                } else if self.freed == 0 {
                    TakeOwnFree
                } else {
                    Free
                }
            }
            TakeOwnFree => {
                self.hand = heap.exchange(config.free_list(self.thread), 0) as usize;
                Free
            }
            Free => {
                heap.exchange(config.colour(self.block), 8 * self.hand as u64 + FREE);
                self.hand = self.block;
                self.freed += 1;
                self.paid += 1;
                self.next_block()
            }
            PutFree => {
                heap.exchange(config.free_list(self.thread), self.hand as u64);
                Credit
            }
            _ => {
                heap.words[2].add(self.freed);
                Leave
            }
        };
        (next, Turn::Went)
    }

    fn build(&mut self, heap: &Heap<impl Word>, order: &mut impl FnMut(Item)) -> (Row, Turn) {
        use Row::*;

        let config = &heap.config;
        let k = self.command().blocks(config.width);
        let next = match self.row {
            ReadCount => {
                let count = heap.load(2);
                if count < k as u64 {
                    self.decide(order);
                    let cycle = (self.cycle - 1).max(1);
                    self.answer(Reply::Full(cycle))
                } else {
                    Reserve { seen: count }
                }
            }
            Reserve { seen } => {
                if heap.compare_exchange(2, seen, seen - k as u64) != seen {
                    return (ReadCount, Turn::Waited);
                }
                self.held.clear();
                TakeFree { u: 0 }
            }
            TakeFree { u } => {
                let list = (self.thread + u) % config.threads;
                self.hand = heap.exchange(config.free_list(list), 0) as usize;
                self.second = u as u64;
                if self.hand != 0 {
                    Collect
                } else if u + 1 < config.threads {
                    TakeFree { u: u + 1 }
                } else {
                    return (TakeFree { u: 0 }, Turn::Waited);
                }
            }
            Collect => {
                self.held.push(self.hand);
                self.hand = (heap.load(config.colour(self.hand)) / 8) as usize;
                if self.held.len() == k {
                    if self.hand != 0 { PutRest } else { Write { ordinal: k - 1, k: 0 } }
                } else if self.hand != 0 {
                    Collect
                } else {
                    TakeFree { u: (self.second as usize + 1) % config.threads }
                }
            }
            PutRest => {
                heap.exchange(config.free_list(self.thread), self.hand as u64);
                Write { ordinal: k - 1, k: 0 }
            }
            Write { ordinal, k: at } => {
                heap.exchange(self.build_place(heap, ordinal, at), self.build_word(heap, ordinal, at));
                if at < config.width + 2 {
                    Write { ordinal, k: at + 1 }
                } else if ordinal > 0 {
                    Write { ordinal: ordinal - 1, k: 0 }
                } else {
                    Publish
                }
            }
            _ => {
                let (Command::New { d, .. } | Command::Arr { d, .. }) = self.command() else {
                    unreachable!()
                };
                heap.exchange(self.register(heap, d), 2 * self.held[0] as u64);
                self.serial += 1;
                self.decide(order);
                self.answer(Reply::New(self.thread as u32, self.serial))
            }
        };
        (next, Turn::Went)
    }

    // Owner, shape, payloads, and the colour last.
    fn build_place(&self, heap: &Heap<impl Word>, ordinal: usize, at: usize) -> usize {
        let colour = heap.config.colour(self.held[ordinal]);
        if at == heap.config.width + 2 { colour } else { colour + 1 + at }
    }

    fn build_word(&self, heap: &Heap<impl Word>, ordinal: usize, at: usize) -> u64 {
        let width = heap.config.width;
        let (shape, elements) = match self.command() {
            Command::New { fields, .. } => (2 * fields as u64, None),
            Command::Arr { elements, .. } => (2 * elements as u64 + 1, Some(elements as usize)),
            _ => unreachable!(),
        };
        match at {
            0 => {
                let serial = self.serial as u64 + 1;
                ((self.thread as u64) << 40) + (serial << 16) + ordinal as u64
            }
            1 => shape,
            _ if at < width + 2 => {
                let link = match elements {
                    Some(e) => child_of(width, e, ordinal, at - 2),
                    None => (at == 2 && ordinal + 1 < self.held.len()).then_some(ordinal + 1),
                };
                link.map_or(0, |o| 2 * self.held[o] as u64)
            }
            _ => live(self.cycle),
        }
    }

    fn field(&mut self, heap: &Heap<impl Word>, order: &mut impl FnMut(Item)) -> Row {
        use Row::*;

        let config = &heap.config;
        match self.row {
            LoadOperand => self.operand(heap, order),
            LoadOther => {
                let same = heap.load(self.place) == self.loaded;
                self.decide(order);
                self.answer(if same { Reply::Yes } else { Reply::No })
            }
            LoadShape => self.shape(heap, order),
            LoadExpected => {
                self.expected = heap.load(self.place);
                LoadValue
            }
            LoadValue => {
                self.loaded = heap.load(self.second as usize);
                self.to_slot(heap)
            }
            Walk => {
                let turn = match self.way.power {
                    0 => 0,
                    power => self.way.index / power % config.width as u64,
                };
                self.way.power /= config.width as u64;
                self.way.links -= 1;
                let word = heap.load(config.payload(self.block, turn as usize));
                self.block = (word / 2) as usize;
                self.to_slot(heap)
            }
            LoadField => {
                self.loaded = heap.load(self.place);
                self.take_field(heap, order)
            }
            ExchangeField => {
                self.loaded = heap.exchange(self.place, self.loaded);
                self.take_field(heap, order)
            }
            CompareField => {
                let word = heap.compare_exchange(self.place, self.expected, self.loaded);
                self.decide(order);
                self.answer(if word == self.expected { Reply::Yes } else { Reply::No })
            }
            IdleLook => {
                heap.load(0);
                self.decide(order);
                self.answer(Reply::Idle)
            }
            LoadOwner => {
                self.second = heap.load(config.colour((self.loaded / 2) as usize) + 1);
                match self.command() {
                    Command::Say { .. } => self.answer(owned(self.second)),
                    _ => self.barrier(self.loaded, Store),
                }
            }
            ShadeTake => {
                self.hand = heap.exchange(config.grey_list(self.thread), 0) as usize;
                ShadeTarget
            }
            ShadeTarget => {
                self.shade(heap, (self.loaded / 2) as usize);
                if self.hand != 0 { ShadePut } else { self.behind }
            }
            ShadePut => {
                heap.exchange(config.grey_list(self.thread), self.hand as u64);
                self.behind
            }
            _ => self.store(heap, order),
        }
    }

    // After the first register was to be loaded.
    fn operand(&mut self, heap: &Heap<impl Word>, order: &mut impl FnMut(Item)) -> Row {
        let word = heap.load(self.place);
        match self.command() {
            Command::Mov { d, .. } => {
                (self.place, self.loaded) = (self.register(heap, d), word);
                self.barrier(word, Row::Store)
            }
            Command::Same { a: _, b } => {
                (self.place, self.loaded) = (self.register(heap, b), word);
                Row::LoadOther
            }
            Command::Say { .. } => {
                self.decide(order);
                self.loaded = word;
                if is_reference(word) { Row::LoadOwner } else { self.answer(plain(word)) }
            }
            _ => self.object(word, order).unwrap_or(Row::LoadShape),
        }
    }

    fn shape(&mut self, heap: &Heap<impl Word>, order: &mut impl FnMut(Item)) -> Row {
        let shape = heap.load(heap.config.colour(self.block) + 2);
        let (Command::Get { i, .. } | Command::Put { i, .. } | Command::Swap { i, .. }
        | Command::Cas { i, .. }) = self.command()
        else {
            self.decide(order);
            return self.answer(Reply::Len(shape / 2));
        };
        if i >= shape / 2 {
            self.decide(order);
            return self.answer(Reply::Range);
        }
        self.way = way_to(heap.config.width as u64, shape, i);
        match self.command() {
            Command::Put { v, .. } | Command::Swap { v, .. } => {
                self.second = self.register(heap, v) as u64;
                Row::LoadValue
            }
            Command::Cas { a, v, .. } => {
                self.place = self.register(heap, a);
                self.second = self.register(heap, v) as u64;
                Row::LoadExpected
            }
            _ => self.to_slot(heap),
        }
    }

    // The next link, or the field itself.
    fn to_slot(&mut self, heap: &Heap<impl Word>) -> Row {
        if self.way.links > 0 {
            return Row::Walk;
        }
        self.place = heap.config.payload(self.block, self.way.last as usize);
        match self.command() {
            Command::Get { .. } => Row::LoadField,
            Command::Swap { .. } => self.barrier(self.loaded, Row::ExchangeField),
            Command::Cas { .. } => self.barrier(self.loaded, Row::CompareField),
            _ => self.barrier(self.loaded, Row::Store),
        }
    }

    // After the field's value was loaded, which goes to a register.
    fn take_field(&mut self, heap: &Heap<impl Word>, order: &mut impl FnMut(Item)) -> Row {
        self.decide(order);
        let (Command::Get { d: to, .. } | Command::Swap { v: to, .. }) = self.command() else {
            unreachable!()
        };
        self.place = self.register(heap, to);
        if is_reference(self.loaded) { Row::LoadOwner } else { Row::Store }
    }

    fn store(&mut self, heap: &Heap<impl Word>, order: &mut impl FnMut(Item)) -> Row {
        heap.exchange(self.place, self.loaded);
        let reply = match self.command() {
            Command::Get { .. } | Command::Swap { .. } if is_reference(self.loaded) => {
                owned(self.second)
            }
            Command::Get { .. } | Command::Swap { .. } => plain(self.loaded),
            _ => {
                self.decide(order);
                Reply::Stored
            }
        };
        self.answer(reply)
    }
}

fn plain(word: u64) -> Reply {
    if word == 0 { Reply::Nil } else { Reply::Int(word / 2) }
}

fn owned(owner: u64) -> Reply {
    Reply::Ref((owner >> 40) as u32, (owner >> 16) as u32 & 0xff_ffff)
}

/// The words of `rand_pcg`'s `Lcg64Xsh32::new(key, 1)`.
struct Draws {
    state: u64,
}

impl Draws {
    const MULTIPLIER: u64 = 6_364_136_223_846_793_005;
    const INCREMENT: u64 = 3;

    fn new(key: u64) -> Draws {
        let mut draws = Draws { state: key.wrapping_add(Draws::INCREMENT) };
        draws.step();
        draws
    }

    fn step(&mut self) {
        self.state = self.state.wrapping_mul(Draws::MULTIPLIER).wrapping_add(Draws::INCREMENT);
    }

    fn next(&mut self) -> u32 {
        let state = self.state;
        self.step();
        ((((state >> 18) ^ state) >> 27) as u32).rotate_right((state >> 59) as u32)
    }
}

struct Job {
    config: Config,
    traces: Vec<Vec<Command>>,
}

fn read_job() -> Job {
    let mut bytes = Vec::new();
    io::stdin().read_to_end(&mut bytes).expect("standard input can be read");
    let mut lines = bytes.split(|&b| b == b'\n');
    let header: Vec<&[u8]> = lines.next().unwrap().split(|&b| b == b' ').collect();
    let at = |k: usize| number(header[k]) as usize;
    let config = Config {
        width: 4 * at(1),
        threads: at(3),
        blocks: at(5),
        live: at(7),
        object: at(9),
        shared: at(11),
    };
    let mut traces: Vec<Vec<Command>> = Vec::new();
    for line in lines {
        if line.starts_with(b"thread") {
            traces.push(Vec::new());
        } else if line == b"end" {
            break;
        } else {
            traces.last_mut().unwrap().push(read_command(line));
        }
    }
    Job { config, traces }
}

fn number(piece: &[u8]) -> u64 {
    piece.iter().fold(0, |n, b| 10 * n + u64::from(b - b'0'))
}

fn read_command(line: &[u8]) -> Command {
    let mut pieces = line.split(|&b| b == b' ');
    let word = pieces.next().unwrap();
    let mut next = || number(pieces.next().unwrap());
    match word {
        b"new" => Command::New { d: next() as u8, fields: next() as u32 },
        b"arr" => Command::Arr { d: next() as u8, elements: next() as u32 },
        b"set" => Command::Set { d: next() as u8, value: next() },
        b"nil" => Command::Nil { d: next() as u8 },
        b"mov" => Command::Mov { d: next() as u8, s: next() as u8 },
        b"get" => Command::Get { d: next() as u8, s: next() as u8, i: next() },
        b"put" => {
            let (s, i) = (next() as u8, next());
            Command::Put { s, i, v: next() as u8 }
        }
        b"len" => Command::Len { s: next() as u8 },
        b"same" => Command::Same { a: next() as u8, b: next() as u8 },
        b"swap" => {
            let (s, i) = (next() as u8, next());
            Command::Swap { s, i, v: next() as u8 }
        }
        b"cas" => {
            let (s, i) = (next() as u8, next());
            Command::Cas { s, i, a: next() as u8, v: next() as u8 }
        }
        b"idle" => Command::Idle { units: next() },
        _ => Command::Say { s: next() as u8 },
    }
}

fn generated(key: u64, lines: u64) -> Job {
    let mut draws = Draws::new(key);
    let config =
        Config { width: 4, threads: 4, blocks: 4096, live: 2000, object: 16, shared: 64 };
    let traces = (0..4).map(|_| (0..lines).map(|_| drawn(&mut draws)).collect()).collect();
    Job { config, traces }
}

fn drawn(draws: &mut Draws) -> Command {
    let (w, x, y, z) = (draws.next(), draws.next(), draws.next(), draws.next());
    command_of(w % 10, (1 + x % 15) as u8, (y % 16) as u8, z)
}

/// A job of version 2 with all of its commands, of which half are on the shared array.
fn generated_wide(key: u64, threads: usize, lines: u64) -> Job {
    let mut draws = Draws::new(key);
    let config = Config { width: 8, threads, blocks: 4096, live: 2000, object: 16, shared: 8 };
    let traces =
        (0..threads).map(|_| (0..lines).map(|_| drawn_wide(&mut draws)).collect()).collect();
    Job { config, traces }
}

fn drawn_wide(draws: &mut Draws) -> Command {
    let (w, x, y, z) = (draws.next(), draws.next(), draws.next(), draws.next());
    let s = if y % 2 == 0 { 0 } else { (y / 2 % 16) as u8 };
    command_of(w % 16, (1 + x % 15) as u8, s, z)
}

fn command_of(kind: u32, d: u8, s: u8, z: u32) -> Command {
    let (k, i) = (z % 8, u64::from(z % 8));
    match kind {
        0 | 1 => Command::New { d, fields: k },
        2 => Command::Arr { d, elements: 4 * k },
        3 => Command::Set { d, value: u64::from(z) },
        4 => Command::Nil { d },
        5 => Command::Mov { d, s },
        6 => Command::Get { d, s, i },
        7 => Command::Put { s, i, v: d },
        8 => Command::Len { s },
        9 => Command::Same { a: d, b: s },
        10 => Command::Say { s },
        11 | 12 => Command::Swap { s, i, v: d },
        13 | 14 => Command::Cas { s, i, a: (z / 8 % 16) as u8, v: d },
        _ => Command::Idle { units: u64::from(z % 64) },
    }
}

/// Prints through one buffer, digits by hand.
struct Printer {
    bytes: Vec<u8>,
}

impl Printer {
    fn text(&mut self, text: &str) {
        self.bytes.extend_from_slice(text.as_bytes());
    }

    fn number(&mut self, mut n: u64) {
        let (mut digits, mut start) = ([0u8; 20], 20);
        loop {
            start -= 1;
            digits[start] = b'0' + (n % 10) as u8;
            n /= 10;
            if n == 0 {
                break;
            }
        }
        self.bytes.extend_from_slice(&digits[start..]);
    }

    fn name(&mut self, word: &str, thread: u32, serial: u32) {
        self.text(word);
        self.number(u64::from(thread));
        self.text(".");
        self.number(u64::from(serial));
    }

    fn entry(&mut self, thread: usize, entry: &Entry) {
        self.number(thread as u64);
        match entry.reply {
            Reply::New(t, s) => self.name(" new ", t, s),
            Reply::Ref(t, s) => self.name(" ref ", t, s),
            Reply::Full(c) => self.counted(" full ", c),
            Reply::Int(n) => self.counted(" int ", n),
            Reply::Len(n) => self.counted(" len ", n),
            Reply::Stored => self.text(" ok"),
            Reply::Nil => self.text(" nil"),
            Reply::Yes => self.text(" yes"),
            Reply::No => self.text(" no"),
            Reply::Null => self.text(" null"),
            Reply::Kind => self.text(" kind"),
            Reply::Range => self.text(" range"),
            Reply::Idle => self.text(" idle"),
        }
        if let Reply::New(..) | Reply::Full(_) | Reply::Idle = entry.reply {
            self.counted(" work ", entry.work);
        }
        self.end_line();
    }

    fn counted(&mut self, word: &str, n: u64) {
        self.text(word);
        self.number(n);
    }

    fn end_line(&mut self) {
        self.bytes.push(b'\n');
        if self.bytes.len() > 60_000 {
            self.flush();
        }
    }

    fn flush(&mut self) {
        io::stdout().write_all(&self.bytes).expect("standard output can be written");
        self.bytes.clear();
    }

    fn last(&mut self, cycles: u64, mutators: &[Mutator]) {
        let work = mutators.iter().flat_map(|m| &m.log).map(|e| e.work).sum();
        self.counted("end cycles ", cycles);
        self.counted(" work ", work);
        self.end_line();
        self.flush();
    }
}

fn mutators<W: Word>(job: Job) -> (Heap<W>, Vec<Mutator>) {
    let heap = Heap::open(job.config);
    let each = job.traces.into_iter().enumerate().map(|(t, trace)| Mutator::new(t, trace));
    (heap, each.collect())
}

// Each thread's turns to its end, one thread behind the other.
fn run_serially(heap: &Heap<impl Word>, mutators: &mut [Mutator]) -> u64 {
    let mut cycles = 1;
    for mutator in mutators {
        while mutator.turn(heap, &mut |item| cycles += u64::from(matches!(item, Item::Start)))
            != Turn::Done
        {}
    }
    cycles
}

/// The pause after a turn that waited: twice as long each time, and from some time on the thread
/// gives way as well.
struct Pause {
    step: u32,
}

impl Pause {
    fn wait(&mut self) {
        if self.step <= 6 {
            for _ in 0..1 << self.step {
                hint::spin_loop();
            }
        } else {
            thread::yield_now();
        }
        self.step = (self.step + 1).min(11);
        thread::yield_now();
    }
}

// The turns of a thread to its end, beside the others. The pause lasts until it has made a unit or
// ended a command.
fn drive(heap: &Heap<AtomicU64>, mutator: &mut Mutator) -> u64 {
    let (mut starts, mut pause) = (0, Pause { step: 0 });
    loop {
        let (entries, paid) = (mutator.log.len(), mutator.paid);
        match mutator.turn(heap, &mut |item| starts += u64::from(matches!(item, Item::Start))) {
            Turn::Done => return starts,
            Turn::Waited => pause.wait(),
            Turn::Went => {
                if mutator.paid != paid || mutator.log.len() != entries {
                    pause.step = 0;
                }
            }
        }
    }
}

// A thread for each mutator, and the calling thread for the last.
fn run_on_threads(heap: &Heap<AtomicU64>, mutators: &mut [Mutator]) -> u64 {
    let Some((last, others)) = mutators.split_last_mut() else { return 1 };
    thread::scope(|scope| {
        let each = others.iter_mut().map(|m| scope.spawn(|| drive(heap, m)));
        let running: Vec<_> = each.collect();
        let own = drive(heap, last);
        1 + own + running.into_iter().map(|r| r.join().expect("it ends")).sum::<u64>()
    })
}

fn ran(job: Job) -> (u64, Vec<Mutator>) {
    let (heap, mut mutators) = mutators(job);
    let cycles = run_on_threads(&heap, &mut mutators);
    (cycles, mutators)
}

fn ran_serially(job: Job) -> (u64, Vec<Mutator>) {
    let (heap, mut mutators) = mutators::<Cell<u64>>(job);
    let cycles = run_serially(&heap, &mut mutators);
    (cycles, mutators)
}

fn print_by_threads((cycles, mutators): (u64, Vec<Mutator>)) {
    let mut out = Printer { bytes: Vec::new() };
    for mutator in &mutators {
        for entry in &mutator.log {
            out.entry(mutator.thread, entry);
        }
    }
    out.last(cycles, &mutators);
}

fn measure(rate: u64, (cycles, mutators): (u64, Vec<Mutator>)) {
    let mut most_turns: Vec<u64> = Vec::new();
    let mut most_idle: BTreeMap<u64, u64> = BTreeMap::new();
    for m in &mutators {
        println!("thread {} turns {} waits {}", m.thread, m.turns, m.waits);
        most_turns.resize(most_turns.len().max(m.most_turns.len()), 0);
        for (blocks, &turns) in m.most_turns.iter().enumerate() {
            most_turns[blocks] = most_turns[blocks].max(turns);
        }
        for (&units, &turns) in &m.most_idle {
            let most = most_idle.entry(units).or_default();
            *most = turns.max(*most);
        }
    }
    for (blocks, turns) in most_turns.iter().enumerate().filter(|&(_, &turns)| turns > 0) {
        println!("blocks {blocks} most turns {turns}");
    }
    for (units, turns) in &most_idle {
        println!("idle {units} most turns {turns}");
    }
    let work: u64 = mutators.iter().flat_map(|m| &m.log).map(|e| e.work).sum();
    println!("cycles {cycles} units {work} rate {rate}");
}

fn trial(job: Job) {
    let (cycles, mutators) = ran_serially(job);
    Printer { bytes: Vec::new() }.last(cycles, &mutators);
}

// Whose turn is turn j; the threads are all that are not done, and more.
fn chosen(schedule: &str, draws: &mut Option<Draws>, mutators: &[Mutator], j: u64) -> usize {
    match (schedule, draws) {
        ("robin", _) => (j % mutators.len() as u64) as usize,
        ("serial", _) => mutators.iter().position(|m| !m.done()).unwrap(),
        (_, Some(draws)) => (draws.next() as usize) % mutators.len(),
        _ => unreachable!(),
    }
}

fn replay(job: Job, schedule: &str, most: u64) -> ExitCode {
    let (heap, mut mutators) = mutators::<Cell<u64>>(job);
    let mut draws = schedule.parse().ok().map(Draws::new);
    let mut order = vec![Item::Start];
    let mut undone = mutators.iter().filter(|m| !m.done()).count();
    let mut turns = 0;
    while undone > 0 {
        if turns == most {
            let least = mutators.iter().position(|m| !m.done()).unwrap();
            println!("rtheap: turns used, thread {least}");
            return ExitCode::from(8);
        }
        let t = chosen(schedule, &mut draws, &mutators, turns);
        let went = mutators[t].turn(&heap, &mut |item| order.push(item));
        undone -= usize::from(went != Turn::Done && mutators[t].done());
        turns += 1;
    }
    print_in_order(&order, &mutators);
    ExitCode::SUCCESS
}

fn print_in_order(order: &[Item], mutators: &[Mutator]) {
    let mut out = Printer { bytes: Vec::new() };
    let (mut cycles, mut next) = (0, vec![0; mutators.len()]);
    for item in order {
        match item {
            Item::Start => {
                cycles += 1;
                out.counted("start ", cycles);
                out.end_line();
            }
            Item::Entry(t) => {
                let t = *t as usize;
                out.entry(t, &mutators[t].log[next[t]]);
                next[t] += 1;
            }
        }
    }
    out.last(cycles, mutators);
}

fn print_job(job: &Job) {
    let c = &job.config;
    println!(
        "rtheap {} threads {} blocks {} live {} object {} shared {}",
        c.width / 4, c.threads, c.blocks, c.live, c.object, c.shared
    );
    for (t, trace) in job.traces.iter().enumerate() {
        println!("thread {t}");
        for command in trace {
            println!("{}", line_of(command));
        }
    }
    println!("end");
}

fn line_of(command: &Command) -> String {
    match command {
        Command::New { d, fields } => format!("new {d} {fields}"),
        Command::Arr { d, elements } => format!("arr {d} {elements}"),
        Command::Set { d, value } => format!("set {d} {value}"),
        Command::Nil { d } => format!("nil {d}"),
        Command::Mov { d, s } => format!("mov {d} {s}"),
        Command::Get { d, s, i } => format!("get {d} {s} {i}"),
        Command::Put { s, i, v } => format!("put {s} {i} {v}"),
        Command::Len { s } => format!("len {s}"),
        Command::Same { a, b } => format!("same {a} {b}"),
        Command::Say { s } => format!("say {s}"),
        Command::Swap { s, i, v } => format!("swap {s} {i} {v}"),
        Command::Cas { s, i, a, v } => format!("cas {s} {i} {a} {v}"),
        Command::Idle { units } => format!("idle {units}"),
    }
}

fn main() -> ExitCode {
    let words: Vec<String> = std::env::args().skip(1).collect();
    let words: Vec<&str> = words.iter().map(String::as_str).collect();
    match words[..] {
        ["run"] => print_by_threads(ran(read_job())),
        ["serial"] => print_by_threads(ran_serially(read_job())),
        ["measure"] => {
            let job = read_job();
            measure(job.config.rate(), ran(job));
        }
        ["measure", "serial"] => {
            let job = read_job();
            measure(job.config.rate(), ran_serially(job));
        }
        ["replay", schedule, turns] => return replay(read_job(), schedule, turns.parse().unwrap()),
        ["make", key, lines] => print_job(&generated(key.parse().unwrap(), lines.parse().unwrap())),
        ["trial", key, lines] => trial(generated(key.parse().unwrap(), lines.parse().unwrap())),
        ["draw", key, threads, lines] => print_job(&generated_wide(
            key.parse().unwrap(),
            threads.parse().unwrap(),
            lines.parse().unwrap(),
        )),
        ["worst", cycles] => {
            let worst = worst::worst(read_job().config, cycles.parse().unwrap());
            for (blocks, turns) in (1..).zip(worst.most_turns) {
                println!("blocks {blocks} most turns {turns} rate {}", worst.rate);
            }
            for (command, turns) in worst.others {
                println!("{} {} most turns {turns}", command.word(), command.told());
            }
        }
        _ => {
            println!("rtheap: usage");
            return ExitCode::from(2);
        }
    }
    ExitCode::SUCCESS
}
