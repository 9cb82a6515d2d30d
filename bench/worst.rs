//! A job that is made for the worst of a command, and the most turns that one takes in it.
//!
//! All that lives refers to blocks with each payload word, so that each block that is marked takes
//! as many turns as one can. The last thread does nearly all the work, so that its lists, grey and
//! free, are the farthest from thread 0; and whenever it starts a cycle, other threads shade an
//! object each, whose grey lists stay until it has marked all else. Thread 0 has a record of as
//! many blocks as an object may have, whose last field has the only reference to an array: its
//! commands on that field follow the longest way, and in Mark shade what they store and load.
//! Between two commands of the last thread, where a phase may be about to end, the command is tried
//! by thread 0 on a copy of the heap, where it alone has turns: that is a job too, with this
//! command next.

use super::*;

/// What the allocations of so many blocks, from 1 on, took at most, and each other command that was
/// tried; and the rate.
pub struct Worst {
    pub most_turns: Vec<u64>,
    pub others: Vec<(Command, u64)>,
    pub rate: u64,
}

/// The most turns in so many cycles.
pub fn worst(config: Config, cycles: u64) -> Worst {
    let mut stage = Stage::open(config);
    for cycle in 0..cycles {
        stage.cycle(cycle);
    }
    Worst { most_turns: stage.most_turns, others: stage.others, rate: stage.heap.rate }
}

// The registers of each thread: the shared array, garbage, an object that only this thread refers
// to, that object again, and two with objects that come and go; the others have the chain.
const SHARED: u8 = 0;
const GARBAGE: u8 = 1;
const OWN: u8 = 2;
const AGAIN: u8 = 3;
const FEW: u8 = 4;
const NEXT: u8 = 5;
const CHAIN: u8 = 6;

struct Stage {
    heap: Heap<Cell<u64>>,
    mutators: Vec<Mutator>,
    // How many threads have a grey list in a cycle: the farthest, and the last thread is one of
    // them.
    far: usize,
    most_turns: Vec<u64>,
    others: Vec<(Command, u64)>,
}

impl Stage {
    fn open(config: Config) -> Stage {
        let heap = Heap::open(config);
        let mutators = (0..config.threads).map(|t| Mutator::new(t, Vec::new())).collect();
        let most_turns = vec![0; config.object];
        let others = others_of(config, heap.rate);
        let mut stage = Stage { heap, mutators, far: 0, most_turns, others };
        stage.chain_up();
        for t in 0..config.threads {
            stage.fill_registers(t);
        }
        stage.own_record(0);
        stage
    }

    fn last(&self) -> usize {
        self.heap.config.threads - 1
    }

    // A chain of full arrays, as long as the largest allocation has units where there is room.
    fn chain_up(&mut self) {
        let config = self.heap.config;
        let units = self.heap.rate as usize * config.object;
        let beside = config.opening_blocks() + config.threads + 3 * config.object;
        let blocks = (units + 16).min(config.blocks.saturating_sub(beside));
        self.ask(self.last(), Command::Mov { d: CHAIN, s: SHARED });
        for _ in 0..blocks {
            self.push_array(self.last(), CHAIN);
        }
        for i in 0..config.shared as u64 {
            self.ask(self.last(), Command::Put { s: SHARED, i, v: CHAIN });
        }
    }

    // An array of one block, of which each element refers to what register r does, and then r to
    // it.
    fn push_array(&mut self, t: usize, r: u8) {
        let elements = self.heap.config.width as u32;
        self.ask(t, Command::Arr { d: NEXT, elements });
        for i in 0..u64::from(elements) {
            self.ask(t, Command::Put { s: NEXT, i, v: r });
        }
        self.ask(t, Command::Mov { d: r, s: NEXT });
    }

    fn fill_registers(&mut self, t: usize) {
        for d in GARBAGE..REGISTERS as u8 {
            self.ask(t, Command::Get { d, s: SHARED, i: 0 });
        }
        self.ask(t, Command::Mov { d: OWN, s: SHARED });
        self.push_array(t, OWN);
        self.ask(t, Command::Mov { d: AGAIN, s: OWN });
    }

    // A record of as many blocks as there may be, full of references.
    fn own_record(&mut self, t: usize) {
        let fields = longest_record(self.heap.config);
        self.push_array(t, OWN);
        self.ask(t, Command::Mov { d: AGAIN, s: OWN });
        self.ask(t, Command::New { d: OWN, fields: fields as u32 });
        for i in 0..fields {
            self.ask(t, Command::Put { s: OWN, i, v: SHARED });
        }
        self.ask(t, Command::Put { s: OWN, i: fields - 1, v: AGAIN });
        self.ask(t, Command::Mov { d: NEXT, s: SHARED });
        self.ask(t, Command::Mov { d: AGAIN, s: OWN });
    }

    fn phase(&self) -> u64 {
        self.heap.load(0) / SWEEP
    }

    fn is_sweep(&self) -> bool {
        self.phase() % 2 == 1
    }

    // From a start to the next. As many grey lists are far off as the passes of a small allocation
    // reach, or all, and what lives differs from cycle to cycle.
    fn cycle(&mut self, number: u64) {
        let (rate, last) = (self.heap.rate as usize, self.last());
        self.far = [rate - 1, 2 * rate - 1, last][number as usize % 3].min(last);
        while !self.is_sweep() {
            self.fill();
        }
        self.ask(last, Command::Mov { d: FEW, s: CHAIN });
        for _ in 0..number % 7 {
            self.push_array(last, FEW);
        }
        while self.is_sweep() {
            self.fill();
        }
    }

    // An allocation that is garbage soon.
    fn fill(&mut self) {
        let swept = self.heap.load(1) + RANGE > self.heap.config.blocks as u64;
        if !self.is_sweep() || swept {
            for blocks in 1..=self.most_turns.len() {
                self.attempt(blocks);
            }
            for tried in 0..self.others.len() {
                let (_, turns) = self.alone(self.others[tried].0);
                self.others[tried].1 = turns.max(self.others[tried].1);
            }
        }
        self.ask(self.last(), Command::Arr { d: GARBAGE, elements: 1 });
    }

    // Thread t does this command alone; where it starts a cycle others shade.
    fn ask(&mut self, t: usize, command: Command) {
        self.mutators[t].trace.push(command);
        let (mut started, mut went) = (false, Turn::Went);
        while went != Turn::Done {
            went = self.mutators[t]
                .turn(&self.heap, &mut |item| started |= matches!(item, Item::Start));
            if started {
                started = false;
                self.others_shade();
            }
        }
    }

    fn others_shade(&mut self) {
        let last = self.last();
        for other in (last + 1).saturating_sub(self.far)..last {
            self.ask(other, Command::Mov { d: AGAIN, s: OWN });
        }
    }

    // An allocation of so many blocks by thread 0.
    fn attempt(&mut self, blocks: usize) {
        let fields = (blocks * (self.heap.config.width - 1)) as u32;
        let (reply, turns) = self.alone(Command::New { d: GARBAGE, fields });
        if let Reply::New(..) = reply {
            let most = &mut self.most_turns[blocks - 1];
            *most = turns.max(*most);
        }
    }

    // The reply and the turns of a command by thread 0, on a copy.
    fn alone(&self, command: Command) -> (Reply, u64) {
        let config = self.heap.config;
        let words = self.heap.words.iter().map(|word| Cell::new(word.get())).collect();
        let heap = Heap { config, rate: self.heap.rate, words };
        let mut alone = Mutator::new(0, vec![command]);
        alone.serial = self.mutators[0].serial;
        while alone.turn(&heap, &mut |_| ()) != Turn::Done {}
        assert!(alone.waits == 0, "a lone thread waited");
        (alone.log[0].reply, alone.turns)
    }
}

fn longest_record(config: Config) -> u64 {
    (config.object * (config.width - 1)) as u64
}

// The commands that are tried beside the allocations.
fn others_of(config: Config, rate: u64) -> Vec<(Command, u64)> {
    let i = longest_record(config) - 1;
    let most = rate * config.object as u64;
    let fields = [
        Command::Set { d: GARBAGE, value: 1 },
        Command::Nil { d: GARBAGE },
        Command::Mov { d: AGAIN, s: OWN },
        Command::Get { d: GARBAGE, s: OWN, i },
        Command::Put { s: OWN, i, v: AGAIN },
        Command::Swap { s: OWN, i, v: AGAIN },
        Command::Cas { s: OWN, i, a: AGAIN, v: AGAIN },
        Command::Len { s: OWN },
        Command::Same { a: OWN, b: AGAIN },
        Command::Say { s: OWN },
    ];
    let blocks = config.blocks as u64;
    let mut idles = vec![0, 1, 2, rate, 3 * rate, most.min(blocks)];
    // Whole cycles, where most of the heap lives.
    if 2 * most >= blocks {
        idles.extend([blocks, 2 * blocks, 4 * blocks]);
    }
    let idles = idles.into_iter().map(|units| Command::Idle { units });
    fields.into_iter().chain(idles).map(|command| (command, 0)).collect()
}
