//! Benchmarks: the C interface beside the fast twin, same input, both built for release, in one
//! run.
//!
//! It prints Markdown tables. A line has the operation, the law, its rows (local copies,
//! configurations, steps or records), its actions, the ratio of times (the library's to the twin's:
//! above 1 the twin is faster) and its spread; where the table is about growth also each side's
//! time beside its own in the group's first line. With the argument `short` each measurement is
//! short, to see that all of them run.
#![forbid(unsafe_code)]

// Brings the functions that the wrapper declares.
#[cfg(feature = "mock")]
extern crate mock as _;

mod command;
mod laws;
mod sides;
mod timing;

use laws::Part;
use reference::generate::Law;
use reference::interface::{mask_words, FACTS};
use sides::{Side, Slices};
use std::time::Duration;
use timing::{figure, Budget, Times};

fn main() {
    let short = match std::env::args().nth(1).as_deref() {
        None => false,
        Some("short") => true,
        Some(other) => {
            eprintln!("bench: no such argument: {other}\nusage: bench [short]");
            std::process::exit(2);
        }
    };
    let budget = if short { Budget::Short } else { Budget::UpTo(Duration::from_secs(8)) };
    let bench = Bench { budget };
    if cfg!(feature = "mock") {
        println!("The fast twin stands in the library's place.\n");
    }
    bench.tables();
    bench.pddl();
    if !cfg!(feature = "mock") {
        bench.whole_run();
    }
}

/// One operation on one law, timed on both sides.
struct Measured {
    operation: &'static str,
    law: &'static str,
    rows: usize,
    actions: usize,
    times: Times,
}

impl Measured {
    fn line(&self) -> String {
        let Measured { operation, law, rows, actions, times } = self;
        let spread = 100.0 * times.spread;
        format!(
            "| {operation} | {law} | {rows} | {actions} | {} | {spread:.0} %",
            figure(times.ratio)
        )
    }
}

struct Bench {
    budget: Budget,
}

impl Bench {
    fn tables(&self) {
        println!("## Tables that are full\n");
        println!("| operation | law | rows | actions | library / twin | spread |");
        println!("|---|---|---|---|---|---|");
        for measured in [
            self.solo_search("4096 copies", laws::counter(12)),
            self.verdict("one member, 4096 configurations", laws::counter(12)),
            self.verdict("the same in high words", laws::high(laws::counter(12))),
            self.verdict("grid 12 x 13 x 13", laws::grid(&[12, 13, 13])),
            self.verdict("grid of eight members", laws::grid(&[3, 3, 3, 2, 2, 2, 2, 2])),
            self.verdict("grid 12 x 13 x 13, a goal missed", laws::grid_with_fault(&[12, 13, 13])),
            self.joint_replay(65_536),
            self.reader("wide masks", 265, FACTS / 2),
            self.reader("wide masks of 128 facts", 265, FACTS),
        ] {
            println!("{} |", measured.line());
        }

        println!("\n## One pick beside the replay of all picks, each by the library\n");
        println!("| steps | pick / replay | spread |");
        println!("|---|---|---|");
        for steps in [256, 1024, 4096, 16_384] {
            let (rows, times) = self.pick_beside_replay(steps);
            println!("| {rows} | {} | {:.0} % |", figure(times.ratio), 100.0 * times.spread);
        }

        growth("Growth with rows");
        grows(
            (4..=12).map(|facts| {
                self.solo_search("one member", laws::repeated(laws::counter(facts), 24))
            }),
        );
        grows(
            (4..=12)
                .map(|facts| self.verdict("one member", laws::repeated(laws::counter(facts), 24))),
        );
        grows(
            [4, 6, 8, 10, 12]
                .map(|length| self.verdict("cube", laws::grid(&[length, length, length]))),
        );
        let steps = [256, 1024, 4096, 16_384];
        grows(steps.map(|steps| self.solo_replay(steps)));
        grows(steps.map(|steps| self.joint_replay(steps)));
        grows(steps.map(|steps| self.pick("one pick", Slices::pick, steps)));
        grows(steps.map(|steps| self.pick("one ask", Slices::ask, steps)));
        grows(steps.map(|steps| self.pick("one commit", Slices::commit, steps)));
        grows([17, 33, 65, 129].map(|records| self.reader("wide masks", records, FACTS / 2)));

        growth("Growth with actions");
        let times = [16, 32, 64, 128, 256];
        grows(times.map(|actions| self.task_check(actions)));
        grows(times.map(|actions| self.step(actions)));
        let counter = |actions| laws::repeated(laws::counter(8), actions);
        grows(times.map(|actions| self.solo_search("256 copies", counter(actions))));
        grows(times.map(|actions| self.verdict("256 configurations", counter(actions))));
        let cube = |actions| laws::repeated(laws::grid(&[8, 8, 8]), actions);
        grows([21, 42, 84, 168, 252].map(|actions| self.verdict("cube of 512", cube(actions))));
    }

    /// What a person waits for: a run of the command on a law that fills the tables, beside the
    /// verdict alone.
    fn whole_run(&self) {
        let words = command::law();
        let mut twin = Slices::new(Side::Twin);
        let verdict = self.verdict_of(&words);
        println!("\n## A whole run of `./lawcheck {}`\n", command::LAW);
        println!("| what | seconds | beside the twin's verdict | spread |");
        println!("|---|---|---|---|");
        let line = |what: &str, times: Times| {
            let (seconds, spread) = (figure(times.first), 100.0 * times.spread);
            println!("| {what} | {seconds} | {} | {spread:.0} % |", figure(times.ratio));
        };
        line("the library's verdict on its words", verdict);
        for what in [command::PROGRAM, command::COMMAND] {
            line(
                &format!("`{what}`"),
                self.budget.measure(|| command::run(what), || twin.verdict(&words)),
            );
        }
    }

    /// Runs an operation on both sides, asks for one answer, then times both on the same slices:
    /// warm, and each run finds in the slices what the last one left.
    fn measure(
        &self,
        operation: &'static str,
        law: &'static str,
        actions: usize,
        run: impl Fn(&mut Slices),
        rows: impl Fn(&Slices) -> usize,
    ) -> Measured {
        let [mut library, mut twin] = [Side::Library, Side::Twin].map(Slices::new);
        run(&mut library);
        run(&mut twin);
        assert_eq!(library.returned, 0, "{operation} on {law} is refused");
        assert!(library.agree(&twin), "{operation} on {law}: the answers differ");
        let rows = rows(&library);
        let times = self.budget.measure(|| run(&mut library), || run(&mut twin));
        assert!(library.agree(&twin), "{operation} on {law}: a later answer differs");
        Measured { operation, law, rows, actions, times }
    }

    fn task_check(&self, actions: usize) -> Measured {
        let law = laws::repeated(laws::counter(8), actions);
        let words = law.words();
        let rows = 2 + actions;
        self.measure("task check", "one member", actions, |slices| slices.task(&words), |_| rows)
    }

    /// The last action, at a shared copy at which it goes.
    fn step(&self, actions: usize) -> Measured {
        let law = laws::repeated(laws::counter(8), actions);
        let words = law.words();
        let shared = mask_words(law.known());
        let run = |slices: &mut Slices| slices.step(&words, actions as u16 - 1, &shared);
        self.measure("step", "one member", actions, run, |_| 1)
    }

    fn solo_replay(&self, steps: usize) -> Measured {
        let (law, plan) = laws::long_plan(steps);
        let words = law.words();
        let run = |slices: &mut Slices| slices.solo_replay(&words, &plan);
        self.measure("solo replay", "one member", law.actions.len(), run, |_| plan.len())
    }

    fn solo_search(&self, name: &'static str, law: Law) -> Measured {
        let words = law.words();
        let run = |slices: &mut Slices| slices.solo_search(&words);
        self.measure("solo search", name, law.actions.len(), run, |slices| slices.out[0] as usize)
    }

    fn verdict(&self, name: &'static str, law: Law) -> Measured {
        let words = law.words();
        let run = |slices: &mut Slices| slices.verdict(&words);
        let rows = |slices: &Slices| slices.configurations(law.goals.len() + 1);
        self.measure("verdict", name, law.actions.len(), run, rows)
    }

    fn verdict_of(&self, words: &[u64]) -> Times {
        let run = |slices: &mut Slices| slices.verdict(words);
        self.measure("verdict", "the law of the whole run", 0, run, |_| 0).times
    }

    fn joint_replay(&self, steps: usize) -> Measured {
        let (law, plans, ends, picks) = laws::long_run(steps);
        let words = law.words();
        let run = |slices: &mut Slices| slices.joint_replay(&words, &plans, &ends, &picks);
        let rows = |slices: &Slices| slices.out[2] as usize;
        self.measure("joint replay", "eight members in turn", law.actions.len(), run, rows)
    }

    /// A pick, an ask or a commit. The rows are the plans' steps, all of which it looks at.
    fn pick(
        &self,
        name: &'static str,
        call: fn(&mut Slices, &[u64], &[u16], &[u64]),
        steps: usize,
    ) -> Measured {
        let (law, plans, ends, _) = laws::long_run(steps);
        let words = law.words();
        let run = |slices: &mut Slices| call(slices, &words, &plans, &ends);
        self.measure(name, "eight members in turn", law.actions.len(), run, |_| plans.len())
    }

    /// One pick and the replay of all, both by the library.
    fn pick_beside_replay(&self, steps: usize) -> (usize, Times) {
        let (law, plans, ends, picks) = laws::long_run(steps);
        let words = law.words();
        let [mut one, mut all] = [Side::Library, Side::Library].map(Slices::new);
        let times = self.budget.measure(
            || one.pick(&words, &plans, &ends),
            || all.joint_replay(&words, &plans, &ends, &picks),
        );
        assert_eq!((one.returned, all.returned), (0, 0), "a pick or a replay is refused");
        (plans.len(), times)
    }

    /// Laws in PDDL; the rows are the text's bytes.
    fn pddl(&self) {
        growth("Laws in PDDL: rows are bytes of the text");
        let coupons = include_str!("../../examples/coupons-2-in-order.pddl");
        let waits = include_str!("../../examples/coupons-2-in-order.waits.csv");
        grows([self.pddl_read("coupons", coupons, waits)]);
        let sizes = [4 << 10, 16 << 10, 64 << 10, 256 << 10, 1 << 20];
        let long =
            |name, part, bytes| self.pddl_read(name, &laws::pddl_text(bytes, part), "0,0\r\n");
        grows(sizes.map(|bytes| long("long effects", Part::Effects, bytes)));
        grows([long("long initial facts", Part::Initial, 1 << 20)]);
        grows([long("long goal", Part::Goal, 1 << 20)]);
        grows(sizes.map(|bytes| self.pddl_read("comments", &laws::pddl_comments(bytes), "")));
        let short = laws::pddl_text(8 << 10, Part::Effects);
        let waits = [1 << 10, 4 << 10, 16 << 10, 64 << 10].map(|count| "0,0\r\n".repeat(count));
        grows(waits.map(|waits| self.pddl_read("long waits", &short, &waits)));
        let everywhere = |name, actions, facts| {
            let mut writer = Slices::new(Side::Twin);
            writer.pddl_write(&laws::wide(actions, facts), lawcheck::raw::PDDL_BYTES);
            let [text, waits] = writer.texts();
            self.pddl_read(name, text, waits)
        };
        let (half, whole) = ("all of 64 facts everywhere", "all of 128 facts everywhere");
        grows([16, 64, 256].map(|actions| everywhere(half, actions, FACTS / 2)));
        grows([everywhere(whole, 256, FACTS)]);
        grows([16, 64, 256].map(|actions| self.pddl_write(half, actions, FACTS / 2)));
        grows([self.pddl_write(whole, 256, FACTS)]);
    }

    fn pddl_read(&self, name: &'static str, text: &str, waits: &str) -> Measured {
        let run = |slices: &mut Slices| slices.pddl_read(text.as_bytes(), waits.as_bytes());
        let actions = text.matches("(:action").count();
        let bytes = text.len() + waits.len();
        self.measure("PDDL reader", name, actions, run, |_| bytes)
    }

    /// Both sides write texts of their own spelling, which read back to one task.
    fn pddl_write(&self, law: &'static str, actions: usize, facts: usize) -> Measured {
        let task = laws::wide(actions, facts);
        let grouped = reference::paper::pddl::grouped(&task);
        let [mut library, mut twin] = [Side::Library, Side::Twin].map(Slices::new);
        let length = lawcheck::raw::PDDL_BYTES;
        for slices in [&mut library, &mut twin] {
            slices.pddl_write(&task, length);
            assert_eq!(slices.returned, 0, "the writer refuses");
            assert_eq!(slices.read_back(), Ok(grouped.clone()), "the writer's texts");
        }
        let rows = (twin.out[0] + twin.out[1]) as usize;
        let times = self
            .budget
            .measure(|| library.pddl_write(&task, length), || twin.pddl_write(&task, length));
        Measured { operation: "PDDL writer", law, rows, actions, times }
    }

    fn reader(&self, name: &'static str, records: usize, facts: usize) -> Measured {
        let text = laws::wide_text(records, facts);
        let run = |slices: &mut Slices| slices.read(text.as_bytes());
        let rows = |slices: &Slices| slices.out[0] as usize;
        self.measure("reader", name, records - 9, run, rows)
    }
}

fn growth(title: &str) {
    println!("\n## {title}\n");
    println!(
        "| operation | law | rows | actions | library / twin | spread | library's growth | twin's growth |"
    );
    println!("|---|---|---|---|---|---|---|---|");
}

/// A line for each, with both sides' times beside their times in the first.
fn grows(group: impl IntoIterator<Item = Measured>) {
    let mut first: Option<Times> = None;
    for measured in group {
        let first = first.get_or_insert(measured.times);
        let library = figure(measured.times.first / first.first);
        let twin = figure(measured.times.second / first.second);
        println!("{} | {library} | {twin} |", measured.line());
    }
}
