//! Implementations that tell another mask of what a collision lacks (request F-6), or one where
//! nothing collides, or in another place: the fast twin with one operation wrong in each.

use super::changed::{Changed, Met, Other, Teller};
use crate::interface::{mask_of, mask_words};
use Instead::*;

/// What is told instead.
#[derive(Clone, Copy, Debug, PartialEq, Eq)]
pub enum Instead {
    /// All preconditions; those that are waited for; those that are not.
    Preconditions,
    Waited,
    NotWaited,
    Nothing,
    /// What is missing at the initial copy; what is missing and held there.
    AtTheStart,
    HeldAtTheStart,
    /// What the shared copy has and no precondition is; all that it lacks.
    Unneeded,
    Lacking,
    LowestAlone,
    HighestAlone,
    WithoutTheLowest,
    /// What the plan's next step is missing there, or its first one.
    OfTheNextStep,
    OfTheFirstStep,
    /// The words are left as they were, in a collision or in every other answer.
    Unwritten,
    LeftElsewhere,
    /// Something in an answer of this kind, which is no collision.
    In(u64),
    /// Before the shared copy that is told, or after the ticket.
    BeforeTheCopy,
    AfterTheTicket,
    /// An `out` of this length is taken, and gets as many numbers as it has room for.
    OutOf(usize),
}

/// Those that every operation has.
const EVERYWHERE: [Instead; 15] = [
    Preconditions,
    Waited,
    NotWaited,
    Nothing,
    AtTheStart,
    HeldAtTheStart,
    Unneeded,
    Lacking,
    LowestAlone,
    HighestAlone,
    WithoutTheLowest,
    OfTheNextStep,
    OfTheFirstStep,
    Unwritten,
    LeftElsewhere,
];

/// The fast twin with one operation wrong.
#[derive(Clone, Copy, Debug, PartialEq, Eq)]
pub struct Mask {
    pub teller: Teller,
    pub instead: Instead,
}

/// Every one.
pub fn all() -> Vec<Mask> {
    Teller::ALL.into_iter().flat_map(of).collect()
}

/// Those of an operation.
pub fn of(teller: Teller) -> Vec<Mask> {
    // Its answers that are no collision; the numbers that it told before it told what is missing.
    let (others, old, own): (&[u64], usize, &[Instead]) = match teller {
        Teller::Step => (&[0, 1], 3, &[BeforeTheCopy]),
        Teller::JointReplay => (&[0, 2, 3, 4], 5, &[BeforeTheCopy]),
        Teller::Pick | Teller::Commit => (&[0], 1, &[]),
        Teller::Ask => (&[0, 1], 5, &[BeforeTheCopy, AfterTheTicket]),
        Teller::Verdict => (&[0, 1, 3, 4], 3, &[]),
    };
    let lengths = [OutOf(old), OutOf(teller.numbers() - 1)];
    EVERYWHERE
        .into_iter()
        .chain(others.iter().map(|&kind| In(kind)))
        .chain(own.iter().copied())
        .chain(lengths)
        .map(|instead| Mask { teller, instead })
        .collect()
}

impl Mask {
    /// As an implementation.
    pub fn twin(&self) -> Changed<'_> {
        Changed(self)
    }

    /// The mask that is told for this one, where that is wrong.
    fn told(self, met: &Met, kind: u64, missing: u128) -> Option<u128> {
        let collides = kind == met.teller.collision();
        let next = met.action(met.place);
        let at = |place: usize| met.action(place).map(|action| action.missing(met.shared));
        let (pre, wait) = next.map_or((0, 0), |action| (action.pre, action.wait));
        let highest = || 1 << (u128::BITS - 1 - missing.leading_zeros());
        let lowest = missing & missing.wrapping_neg();
        match self.instead {
            In(other) if kind == other => Some(if pre == 0 { 1 } else { pre }),
            _ if !collides => None,
            Preconditions => Some(pre),
            Waited => Some(wait),
            NotWaited => Some(pre & !wait),
            Nothing => Some(0),
            AtTheStart => Some(pre & !met.task.initial),
            HeldAtTheStart => Some(missing & met.task.initial),
            Unneeded => Some(met.shared & !pre),
            Lacking => Some(met.task.known & !met.shared),
            LowestAlone => Some(lowest),
            HighestAlone => Some(highest()),
            WithoutTheLowest => Some(missing & !lowest),
            OfTheNextStep => at(met.place + 1),
            OfTheFirstStep => at(0),
            _ => None,
        }
    }
}

impl Other for Mask {
    fn takes(&self, teller: Teller, length: usize) -> bool {
        self.teller == teller && self.instead == OutOf(length)
    }

    fn tells(&self, met: &Met, out: &mut [u64]) {
        if self.teller != met.teller {
            return;
        }
        let (place, kind) = (self.teller.missing(), out[0]);
        let missing = mask_of(&out[place.clone()]);
        if let Some(told) = self.told(met, kind, missing) {
            out[place.clone()].copy_from_slice(&mask_words(told));
        }
        let collides = kind == self.teller.collision();
        match self.instead {
            Unwritten if collides => out[place.clone()].copy_from_slice(&met.before[place]),
            LeftElsewhere if !collides => out[place.clone()].copy_from_slice(&met.before[place]),
            BeforeTheCopy => out[place.start - 2..place.end].rotate_left(2),
            AfterTheTicket => out[place.start..place.end + 2].rotate_left(2),
            _ => {}
        }
    }
}
