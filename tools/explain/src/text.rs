//! The explanation as text: a lane for each member, a line for each pick.

use crate::finding::{Conflict, Done, Fault, Finding, Nearest};
use crate::law::Law;
use crate::names::Names;
use crate::words::{capital, Words, FIRST_CONFLICT};
use lawcheck::facts;

/// The columns of a line, where names let it.
const WIDTH: usize = 96;
/// The most columns that steps take before what they change.
const STEP: usize = 36;

/// The explanation of a law with this title, which may be empty.
pub fn text(law: &Law, names: &Names, title: &str, finding: &Finding) -> String {
    let words = Words { law, names, quotes: ["\"", "\""], most: usize::MAX };
    let mut told = Text::default();
    let head = match finding {
        Finding::Robust { .. } => "Robust".to_string(),
        Finding::Unsolvable(nearest) => {
            format!("Unsolvable: {} has no plan", words.member(nearest.member))
        }
        Finding::Conflict(conflict) => format!("Not robust: {}", words.kind(conflict)),
    };
    told.line(&head);
    let front = if title.is_empty() { String::new() } else { format!("{title}: ") };
    let first = match finding {
        Finding::Conflict(_) => format!(". {}.", capital(FIRST_CONFLICT)),
        _ => String::new(),
    };
    told.flow("", &format!("{front}{}{first}", words.size()));
    told.line("");
    match finding {
        Finding::Robust { configurations, waits } => {
            told.flow("", &words.robust(*configurations));
            told.line("");
            if waits.is_empty() {
                told.line("No action ever waits.");
            } else {
                told.line("Actions that can wait, and for what:");
            }
            for &(action, mask) in waits {
                let (step, facts) = (words.step(action), words.facts(mask).join(", "));
                told.flow("  ", &format!("{step}: {facts}"));
            }
        }
        Finding::Unsolvable(nearest) => told.nearest(&words, nearest),
        Finding::Conflict(conflict) => told.conflict(&words, conflict),
    }
    told.told
}

#[derive(Default)]
struct Text {
    told: String,
}

impl Text {
    fn line(&mut self, line: &str) {
        self.told.push_str(line.trim_end());
        self.told.push('\n');
    }

    /// Words over as many lines as they take, the later ones two blanks further in.
    fn flow(&mut self, front: &str, words: &str) {
        let mut line = front.to_string();
        let mut begun = false;
        for word in words.split(' ') {
            if begun && columns(&line) + 1 + columns(word) > WIDTH {
                self.line(&line);
                line = format!("{front}  {word}");
                continue;
            }
            if begun {
                line.push(' ');
            }
            line.push_str(word);
            begun = true;
        }
        self.line(&line);
    }

    fn conflict(&mut self, words: &Words, conflict: &Conflict) {
        let law = words.law;
        self.flow("", &format!("Holds at first: {}", or_nothing(words.facts(law.initial()))));
        self.line("");
        self.line("Lanes:");
        for member in 0..law.members {
            self.line(&format!("  {member}  {}", words.member(member)));
        }
        self.line("");
        let mut lanes = Lanes::new(law, conflict);
        let numbers: String = (0..law.members).map(|member| format!(" {member}")).collect();
        self.line(&format!(
            "pick {numbers}  step, and what the shared copy gains (+) and loses (-)"
        ));
        let longest =
            conflict.picks.iter().map(|done| columns(&words.names.step(law, done.action)));
        let wide = longest.max().unwrap_or(0).min(STEP);
        for (place, done) in conflict.picks.iter().enumerate() {
            lanes.picked(done);
            self.change(words, &format!("{:>4}", place + 1), &lanes, done, wide);
        }
        let name = match conflict.fault {
            Fault::Collision { action, .. } => {
                format!("{:wide$}  collision", words.names.step(law, action))
            }
            _ => conflict.fault.kind().to_string(),
        };
        lanes.fault(&conflict.fault);
        self.line(&format!("   ! {}  {name}", lanes.marks()));
        self.line("");
        self.line(legend(&conflict.fault));
        self.line("");
        for sentence in words.fault(conflict) {
            self.flow("", &sentence);
        }
        self.line("");
        self.line("Steps left:");
        for (member, steps) in conflict.left.iter().enumerate() {
            let steps: Vec<String> = steps.iter().map(|&step| words.names.action(step)).collect();
            let steps = if steps.is_empty() { "none".to_string() } else { steps.join("; ") };
            self.flow("  ", &format!("{}: {steps}", words.member(member)));
        }
        self.line("");
        self.flow("", &words.waited(&conflict.waited));
        self.flow("", &words.checked(conflict));
    }

    /// A step with its lanes, and what it changes, over as many lines as that takes.
    fn change(&mut self, words: &Words, number: &str, lanes: &Lanes, done: &Done, wide: usize) {
        let changes = |sign: char, mask| {
            facts(mask).map(move |fact| format!("{sign} {}", words.names.fact(fact)))
        };
        let step = words.names.step(words.law, done.action);
        let mut line = format!("{number} {}  {step:wide$}", lanes.marks());
        let begin = columns(&format!("{number} {}  ", lanes.marks())) + wide;
        if done.before == done.after {
            line.push_str("  no change");
        }
        let mut first = true;
        for change in changes('+', done.gained()).chain(changes('-', done.lost())) {
            if !first && columns(&line) + 2 + columns(&change) > WIDTH {
                self.line(&line);
                let front = format!("     {}", lanes.passing());
                line = format!("{front}{}", " ".repeat(begin.saturating_sub(columns(&front))));
            }
            line.push_str("  ");
            line.push_str(&change);
            first = false;
        }
        self.line(&line);
    }

    fn nearest(&mut self, words: &Words, nearest: &Nearest) {
        for sentence in words.nearest(nearest) {
            self.flow("", &sentence);
        }
        if !nearest.steps.is_empty() {
            self.line("");
            self.line("step   what it does, and what its own copy gains (+) and loses (-)");
        }
        let steps = nearest.steps.iter();
        let names = steps.clone().map(|done| columns(&words.names.step(words.law, done.action)));
        let wide = names.max().unwrap_or(0).min(STEP);
        let lanes = Lanes { marks: Vec::new(), left: Vec::new() };
        for (place, done) in steps.enumerate() {
            self.change(words, &format!("{:>4}", place + 1), &lanes, done, wide);
        }
        self.line("");
        self.flow("", &words.nearest_checked(nearest));
    }
}

/// The marks of the lanes in a line.
struct Lanes {
    marks: Vec<char>,
    /// Each member's number of steps left.
    left: Vec<usize>,
}

/// What the marks of a conflict's lanes say.
fn legend(fault: &Fault) -> &'static str {
    match fault {
        Fault::Collision { .. } => "* picked   | steps left   . plan done   X collides",
        Fault::Deadlock(_) => "* picked   | steps left   . plan done   W waits",
        Fault::Missed(_) => "* picked   | steps left   . plan done   M plan done, goal undone",
    }
}

impl Lanes {
    fn new(law: &Law, conflict: &Conflict) -> Lanes {
        let mut left: Vec<usize> = conflict.left.iter().map(Vec::len).collect();
        for done in &conflict.picks {
            left[done.member] += 1;
        }
        Lanes { marks: vec![' '; law.members], left }
    }

    fn still(&self) -> Vec<char> {
        self.left.iter().map(|&left| if left > 0 { '|' } else { '.' }).collect()
    }

    /// A member's next step is done.
    fn picked(&mut self, done: &Done) {
        self.marks = self.still();
        self.marks[done.member] = '*';
        self.left[done.member] -= 1;
    }

    fn fault(&mut self, fault: &Fault) {
        self.marks = self.still();
        match fault {
            Fault::Collision { member, .. } => self.marks[*member] = 'X',
            Fault::Deadlock(waiting) => {
                waiting.iter().for_each(|(member, ..)| self.marks[*member] = 'W');
            }
            Fault::Missed(missed) => {
                missed.iter().for_each(|(member, _)| self.marks[*member] = 'M');
            }
        }
    }

    fn marks(&self) -> String {
        self.marks.iter().map(|mark| format!(" {mark}")).collect()
    }

    /// The lanes beside a line that goes on.
    fn passing(&self) -> String {
        self.still().iter().map(|mark| format!(" {mark}")).collect()
    }
}

fn or_nothing(names: Vec<String>) -> String {
    if names.is_empty() {
        "nothing".to_string()
    } else {
        names.join(", ")
    }
}

fn columns(text: &str) -> usize {
    text.chars().count()
}
