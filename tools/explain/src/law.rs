//! The parts of a task that the task check accepted.

use lawcheck::raw::{MASK_WORDS, ROW_WORDS};
use lawcheck::{mask, Mask};

/// A law as its words.
#[derive(Clone)]
pub struct Law {
    pub words: Vec<u64>,
    pub facts: usize,
    pub members: usize,
    pub actions: usize,
}

/// The masks of an action's row, in order.
#[derive(Clone, Copy)]
enum Part {
    Pre,
    Wait,
    Add,
}

impl Law {
    /// Of the words of an accepted task.
    pub fn new(words: Vec<u64>) -> Law {
        let [facts, members, actions] = [0, 1, 2].map(|place| words[place] as usize);
        Law { words, facts, members, actions }
    }

    fn mask(&self, place: usize) -> Mask {
        mask([self.words[place], self.words[place + 1]])
    }

    /// The facts that hold at first.
    pub fn initial(&self) -> Mask {
        self.mask(3)
    }

    pub fn goal(&self, member: usize) -> Mask {
        self.mask(ROW_WORDS * (1 + member) + 1)
    }

    /// Where an action's row begins.
    fn row(&self, action: u16) -> usize {
        ROW_WORDS * (1 + self.members + usize::from(action))
    }

    fn part(&self, action: u16, part: Part) -> usize {
        self.row(action) + 1 + MASK_WORDS * part as usize
    }

    /// The member whose action it is.
    pub fn owner(&self, action: u16) -> usize {
        self.words[self.row(action)] as usize
    }

    pub fn pre(&self, action: u16) -> Mask {
        self.mask(self.part(action, Part::Pre))
    }

    pub fn wait(&self, action: u16) -> Mask {
        self.mask(self.part(action, Part::Wait))
    }

    pub fn add(&self, action: u16) -> Mask {
        self.mask(self.part(action, Part::Add))
    }

    /// All actions, by number.
    pub fn all_actions(&self) -> impl Iterator<Item = u16> {
        0..self.actions as u16
    }

    /// The same law with all preconditions waited for.
    pub fn all_waited(&self) -> Law {
        let mut law = self.clone();
        for action in self.all_actions() {
            let [pre, wait] = [Part::Pre, Part::Wait].map(|part| self.part(action, part));
            law.words.copy_within(pre..pre + MASK_WORDS, wait);
        }
        law
    }
}
