//! One operation on slices of its own: each side of a measurement holds one of these.

use reference::fast::Fast;
use reference::interface::{Interface, Pddl, Ticket, CHANGE, MASK, SHARED};

/// Copies that the tables hold: local ones of all members, and those of all configurations. These
/// are twice as many as in the verdict program's tables, and as many as there were in those when a
/// copy was one word.
const LOCAL: usize = 4096;
const CONFIGURATIONS: usize = 8192;

/// The C interface or the fast twin.
#[derive(Clone, Copy, PartialEq)]
pub enum Side {
    Library,
    Twin,
}

/// Slices for so many copies, and the last return and answer.
pub struct Slices {
    side: Side,
    local: Vec<u64>,
    marks: Vec<u8>,
    configurations: Vec<u64>,
    trail: Vec<u64>,
    plans: Vec<u16>,
    ends: Vec<u64>,
    picks: Vec<u8>,
    words: Vec<u64>,
    text: Vec<u8>,
    waits: Vec<u8>,
    run: [u64; lawcheck::raw::RUN_WORDS],
    pub returned: u64,
    pub out: [u64; lawcheck::raw::ASK_OUT],
}

impl Slices {
    pub fn new(side: Side) -> Slices {
        Slices {
            side,
            local: vec![0; MASK * LOCAL],
            marks: vec![0; LOCAL],
            configurations: vec![0; MASK * CONFIGURATIONS],
            trail: vec![0; CONFIGURATIONS],
            plans: vec![0; CONFIGURATIONS / 2 + LOCAL],
            ends: vec![0; 8],
            picks: vec![0; CONFIGURATIONS / 2],
            words: vec![0; lawcheck::raw::TEXT_WORDS],
            text: Vec::new(),
            waits: Vec::new(),
            run: [0; lawcheck::raw::RUN_WORDS],
            returned: 0,
            out: [0; lawcheck::raw::ASK_OUT],
        }
    }

    pub fn task(&mut self, task: &[u64]) {
        self.returned = match self.side {
            Side::Library => lawcheck::raw::task(task),
            Side::Twin => Fast.task(task),
        };
    }

    pub fn step(&mut self, task: &[u64], action: u16, shared: &[u64]) {
        self.returned = match self.side {
            Side::Library => lawcheck::raw::step(task, action, shared, &mut self.out),
            Side::Twin => Fast.step(task, action, shared, &mut self.out),
        };
    }

    pub fn solo_replay(&mut self, task: &[u64], plan: &[u16]) {
        self.returned = match self.side {
            Side::Library => lawcheck::raw::solo_replay(task, 0, plan, &mut self.out),
            Side::Twin => Fast.solo_replay(task, 0, plan, &mut self.out),
        };
    }

    pub fn solo_search(&mut self, task: &[u64]) {
        let (table, marks, out) = (&mut self.local, &mut self.marks, &mut self.out);
        self.returned = match self.side {
            Side::Library => lawcheck::raw::solo_search(task, 0, table, marks, out),
            Side::Twin => Fast.solo_search(task, 0, table, marks, out),
        };
    }

    pub fn verdict(&mut self, task: &[u64]) {
        let Slices { local, marks, configurations, trail, plans, ends, picks, out, .. } = self;
        self.returned = match self.side {
            Side::Library => lawcheck::raw::verdict(
                task,
                local,
                marks,
                configurations,
                trail,
                plans,
                ends,
                picks,
                out,
            ),
            Side::Twin => {
                Fast.verdict(task, local, marks, configurations, trail, plans, ends, picks, out)
            }
        };
    }

    pub fn joint_replay(&mut self, task: &[u64], plans: &[u16], ends: &[u64], picks: &[u8]) {
        self.returned = match self.side {
            Side::Library => lawcheck::raw::joint_replay(task, plans, ends, picks, &mut self.out),
            Side::Twin => Fast.joint_replay(task, plans, ends, picks, &mut self.out),
        };
    }

    /// Puts the run at its start.
    fn start(&mut self, task: &[u64]) {
        self.run = [0; lawcheck::raw::RUN_WORDS];
        self.run[SHARED..CHANGE].copy_from_slice(&task[3..5]);
    }

    /// One pick of member 0 on a run at its start.
    pub fn pick(&mut self, task: &[u64], plans: &[u16], ends: &[u64]) {
        self.start(task);
        let (run, out) = (&mut self.run, &mut self.out);
        self.returned = match self.side {
            Side::Library => lawcheck::raw::pick(task, plans, ends, run, 0, out),
            Side::Twin => Fast.pick(task, plans, ends, run, 0, out),
        };
    }

    /// An ask for member 0 on a run at its start.
    pub fn ask(&mut self, task: &[u64], plans: &[u16], ends: &[u64]) {
        self.start(task);
        let (run, out) = (&mut self.run, &mut self.out);
        self.returned = match self.side {
            Side::Library => lawcheck::raw::ask(task, plans, ends, run, 0, out),
            Side::Twin => Fast.ask(task, plans, ends, run, 0, out),
        };
    }

    /// The commit of what member 0 is told there.
    pub fn commit(&mut self, task: &[u64], plans: &[u16], ends: &[u64]) {
        self.start(task);
        let (run, out) = (&mut self.run, &mut self.out);
        self.returned = match self.side {
            Side::Library => lawcheck::raw::commit(task, plans, ends, run, 0, 0, out),
            Side::Twin => Fast.commit(task, plans, ends, run, Ticket { member: 0, change: 0 }, out),
        };
    }

    pub fn read(&mut self, text: &[u8]) {
        self.returned = match self.side {
            Side::Library => lawcheck::raw::read(text, &mut self.words, &mut self.out),
            Side::Twin => Fast.read(text, &mut self.words, &mut self.out),
        };
    }

    pub fn pddl_read(&mut self, text: &[u8], waits: &[u8]) {
        self.returned = match self.side {
            Side::Library => lawcheck::raw::pddl_read(text, waits, &mut self.words, &mut self.out),
            Side::Twin => Fast.pddl_read(text, waits, &mut self.words, &mut self.out),
        };
    }

    /// The texts go to slices of this length.
    pub fn pddl_write(&mut self, task: &[u64], length: usize) {
        let Slices { side, text, waits, out, .. } = self;
        text.resize(length, 0);
        waits.resize(length, 0);
        self.returned = match side {
            Side::Library => lawcheck::raw::pddl_write(task, text, waits, out),
            Side::Twin => Fast.pddl_write(task, text, waits, out),
        };
    }

    /// The two texts that were written.
    pub fn texts(&self) -> [&str; 2] {
        [(&self.text, 0), (&self.waits, 1)].map(|(slice, place)| {
            let written = &slice[..self.out[place] as usize];
            std::str::from_utf8(written).expect("a text of PDDL")
        })
    }

    /// The task that the texts tell, by the second implementation; the writer's spelling is free.
    pub fn read_back(&self) -> Result<Vec<u64>, u64> {
        let [text, waits] = self.texts().map(str::as_bytes);
        reference::paper::pddl::words(text, waits)
    }

    /// The configurations that a verdict listed, in rows of this many copies; after a fault those
    /// that are not all zeros, which no law here has.
    pub fn configurations(&self, width: usize) -> usize {
        if self.out[0] == 0 {
            return self.out[2] as usize;
        }
        self.configurations
            .chunks(MASK * width)
            .filter(|row| row.iter().any(|&word| word != 0))
            .count()
    }

    /// Whether both hold one answer: the return, the numbers, every table, the conflict and the
    /// run. The trail is free.
    pub fn agree(&self, other: &Slices) -> bool {
        self.returned == other.returned
            && self.out == other.out
            && self.local == other.local
            && self.marks == other.marks
            && self.configurations == other.configurations
            && self.plans == other.plans
            && self.ends == other.ends
            && self.picks == other.picks
            && self.words == other.words
            && self.run == other.run
    }
}
