//! Laws in PDDL: the fast twin agrees with the paper, the cases reach the sizes that they name, and
//! the comparison finds wrong readers and writers, each the fast twin with one thing wrong.

use compare::coverage;
use compare::driver::{one_pddl, run_pddl, Options, Summary};
use compare::operations::pddl::sizes;
use reference::fast::pddl::{read_by, Manner};
use reference::fast::Fast;
use reference::interface::{give, Pddl, FACTS, MASK, ROW};
use reference::paper::pddl::{grouped, words};
use reference::paper::task::check;
use std::collections::BTreeMap;
use std::marker::PhantomData;
use std::sync::Mutex;

#[test]
fn the_fast_twin_agrees_with_the_paper() {
    let cases = sizes::case(sizes::count());
    let summary = run_pddl(&Fast, Options { seed: 7, cases, threads: 2, stop: false });
    for (case, failure) in &summary.failures {
        println!("case {case}: {failure}");
    }
    assert_eq!((summary.passed, summary.failed), (cases, 0));
    assert_eq!(summary.coverage.missing(coverage::PDDL), Vec::<String>::new());
}

// ---- wrong readers

/// A reader in this manner, and the right writer.
struct Reader<M>(PhantomData<M>);

impl<M: Manner + Sync> Pddl for Reader<M> {
    fn pddl_read(&self, text: &[u8], waits: &[u8], words: &mut [u64], out: &mut [u64]) -> u64 {
        if out.is_empty() {
            return 14;
        }
        match read_by::<M>(text, waits, words) {
            Ok(numbers) => give(out, &numbers),
            Err(refusal) => refusal,
        }
    }

    fn pddl_write(&self, task: &[u64], text: &mut [u8], waits: &mut [u8], out: &mut [u64]) -> u64 {
        Fast.pddl_write(task, text, waits, out)
    }
}

/// One of many implementations, so that the comparison is compiled for all of them once.
struct One<'a>(&'a dyn Pddl);

impl Pddl for One<'_> {
    fn pddl_read(&self, text: &[u8], waits: &[u8], words: &mut [u64], out: &mut [u64]) -> u64 {
        self.0.pddl_read(text, waits, words, out)
    }

    fn pddl_write(&self, task: &[u64], text: &mut [u8], waits: &mut [u8], out: &mut [u64]) -> u64 {
        self.0.pddl_write(task, text, waits, out)
    }
}

/// Whether the comparison finds what is wrong.
fn found(checked: &dyn Pddl) -> bool {
    let options = Options { seed: 11, cases: 8_000, threads: 2, stop: true };
    run_pddl(&One(checked), options).failed > 0
}

/// Readers that differ from the right one in one constant, and whether they are found.
macro_rules! readers {
    ($($name:ident: $constant:ident = $value:expr,)*) => {{
        let mut unnoticed: Vec<&str> = Vec::new();
        $({
            struct $name;
            impl Manner for $name {
                readers!(@constant $constant = $value);
            }
            if !found(&Reader::<$name>(PhantomData)) {
                unnoticed.push(stringify!($name));
            }
        })*
        unnoticed
    }};
    (@constant DEEPEST = $value:expr) => { const DEEPEST: usize = $value; };
    (@constant NAME_OF_LENGTH = $value:expr) => { const NAME_OF_LENGTH: usize = $value; };
    (@constant FACTS = $value:expr) => { const FACTS: usize = $value; };
    (@constant MEMBERS = $value:expr) => { const MEMBERS: usize = $value; };
    (@constant ACTIONS = $value:expr) => { const ACTIONS: usize = $value; };
    (@constant $constant:ident = $value:expr) => { const $constant: bool = $value; };
}

#[test]
fn every_wrong_reader_is_found() {
    let unnoticed = readers! {
        CaseOfNamesToldApart: FOLDS_NAMES = false,
        CaseOfWordsToldApart: FOLDS_WORDS = false,
        SeventeenAnds: DEEPEST = 17,
        FifteenAnds: DEEPEST = 15,
        AnyNumberOfAnds: DEEPEST = usize::MAX,
        EmptyAndNotCounted: COUNTS_EMPTY = false,
        NotCounted: COUNTS_NOT = true,
        NotInConditions: NOT_IN_CONDITIONS = true,
        CommentEndsAtCr: COMMENT_ENDS_AT_CR = true,
        CommentNeedsItsEnd: COMMENT_NEEDS_END = true,
        CommentOfAsciiAlone: COMMENT_IS_CHECKED = true,
        TabIsNoBlank: TAB_IS_BLANK = false,
        ColonParts: COLON_PARTS = true,
        NameFromDigit: NAME_FROM_DIGIT = true,
        NameOfAtMost255: NAME_OF_LENGTH = 255,
        NameOfAtMost9999: NAME_OF_LENGTH = 9_999,
        AndIsAName: NAME_AND = true,
        TextAfterTheLastProblem: ANY_END = true,
        NoMember: EMPTY_LAW = true,
        PartsInAnyOrder: PARTS_IN_ANY_ORDER = true,
        NamesBeforeForm: NAMES_AT_ONCE = true,
        DomainNotLookedAt: DOMAIN_IS_NAMED = false,
        PredicateTwice: PREDICATES_ONCE = false,
        ActionTwice: ACTIONS_ONCE = false,
        ActionOnceInAll: ACTIONS_ONCE_IN_ALL = true,
        PredicatesAsSets: PREDICATES_IN_ORDER = false,
        InitialAsLists: INITIAL_AS_SETS = false,
        InitialOfTheFirstAlone: INITIAL_LOOKED_AT = false,
        RepeatedTakesAway: REPEATED_COUNTS_ONCE = false,
        AddedAndDeletedIsDeleted: ADDED_STAYS_DELETED = false,
        ActionsNumberedAnew: ACTIONS_COUNT_ON = false,
        FormBeforeWaits: WAITS_FIRST = false,
        NumbersKnownByLimits: WAITS_KNOWN_BY_LIMITS = true,
        NumbersWrap: WAITS_WRAP = true,
        LeadingZero: WAITS_LEADING_ZERO = true,
        LineFeedAlone: WAITS_LF = true,
        LimitsBeforeNames: LIMITS_FIRST = true,
        OneFactMore: FACTS = 129,
        OneFactLess: FACTS = 127,
        FactsOfOneWord: FACTS = 64,
        NineMembers: MEMBERS = 9,
        SevenMembers: MEMBERS = 7,
        OneActionMore: ACTIONS = 257,
        OneActionLess: ACTIONS = 255,
        WaitOfNoPrecondition: WAITS_CHECKED = false,
        RoomBeforeForm: ROOM_FIRST = true,
        RoomOfTheTextReader: ROOM_OF_THE_TEXT = true,
        WordsBeyondLeft: CLEARS_BEYOND = false,
        WordsLeftAfterRefusal: CLEARS_REFUSED = false,
        WordsClearedAfter14: CLEARS_SHORT = true,
    };
    assert_eq!(unnoticed, Vec::<&str>::new());
}

/// Readers that put facts at other bits.
#[test]
fn every_reader_with_other_bits_is_found() {
    struct HighWordsFactsInTheLow;
    impl Manner for HighWordsFactsInTheLow {
        fn bit(fact: usize) -> u128 {
            1 << (fact % 64)
        }
    }
    struct WordsExchanged;
    impl Manner for WordsExchanged {
        fn bit(fact: usize) -> u128 {
            1 << (fact ^ 64)
        }
    }
    struct HighWordLost;
    impl Manner for HighWordLost {
        fn bit(fact: usize) -> u128 {
            if fact < 64 {
                1 << fact
            } else {
                0
            }
        }
    }
    assert!(found(&Reader::<HighWordsFactsInTheLow>(PhantomData)));
    assert!(found(&Reader::<WordsExchanged>(PhantomData)));
    assert!(found(&Reader::<HighWordLost>(PhantomData)));
}

/// The test above can fail: the right reader is not found.
#[test]
fn the_right_reader_is_not_found() {
    struct Same;
    impl Manner for Same {}
    assert!(!found(&Reader::<Same>(PhantomData)));
}

// ---- wrong writers, and answers that are wrong

/// What is wrong.
#[derive(Clone, Copy, Debug, PartialEq)]
enum Wrong {
    WriterLeavesOutAddedAndDeleted,
    WriterLeavesOutTheHighWord,
    WriterExchangesTheWords,
    WriterGroupsNothing,
    WriterForgetsWaits,
    WriterCountsWaitsAnew,
    WriterLeavesTheRest,
    WriterLengthOff,
    WriterRefusesEnough,
    WriterJustEnoughRefused,
    WriterShortWaitsTaken,
    WriterTaskUnchecked,
    WriterRoomBeforeTask,
    WriterWritesAfterRefusal,
    OutAfterRefusal,
    OutBeyondTheAnswer,
    ShortOutTaken,
    RecordsOff,
}
use Wrong::*;

const WRONG: [Wrong; 18] = [
    WriterLeavesOutAddedAndDeleted,
    WriterLeavesOutTheHighWord,
    WriterExchangesTheWords,
    WriterGroupsNothing,
    WriterForgetsWaits,
    WriterCountsWaitsAnew,
    WriterLeavesTheRest,
    WriterLengthOff,
    WriterRefusesEnough,
    WriterJustEnoughRefused,
    WriterShortWaitsTaken,
    WriterTaskUnchecked,
    WriterRoomBeforeTask,
    WriterWritesAfterRefusal,
    OutAfterRefusal,
    OutBeyondTheAnswer,
    ShortOutTaken,
    RecordsOff,
];

impl Wrong {
    /// The task that is written in place of this one.
    fn instead(self, task: &[u64]) -> Vec<u64> {
        let mut task = task.to_vec();
        let front = ROW * (1 + task[1] as usize);
        match self {
            WriterLeavesOutAddedAndDeleted => {
                task[front..].chunks_mut(ROW).for_each(|row| {
                    row[5] &= !row[7];
                    row[6] &= !row[8];
                });
            }
            WriterLeavesOutTheHighWord => {
                task[front..]
                    .chunks_mut(ROW)
                    .for_each(|row| row[2..].iter_mut().step_by(2).for_each(|high| *high = 0));
            }
            WriterExchangesTheWords if task[0] == FACTS as u64 => {
                task[front..]
                    .chunks_mut(ROW)
                    .for_each(|row| row[1..].chunks_mut(MASK).for_each(|mask| mask.swap(0, 1)));
            }
            WriterGroupsNothing => {
                let mut rows: Vec<Vec<u64>> =
                    task[front..].chunks(ROW).map(<[_]>::to_vec).collect();
                rows.reverse();
                task.truncate(front);
                task.extend(rows.concat());
            }
            WriterForgetsWaits => task[front..].chunks_mut(ROW).for_each(|row| row[3..5].fill(0)),
            WriterCountsWaitsAnew => {
                // The waits of every member's first action go to the first of all.
                let grouped = grouped(&task);
                let rows: Vec<&[u64]> = grouped[front..].chunks(ROW).collect();
                let first = rows.iter().position(|row| row[0] != rows[0][0]);
                if let Some(first) = first {
                    let mut own = task[front..].chunks_mut(ROW);
                    let row = own.find(|row| row[0] == rows[0][0]).expect("its first action");
                    for word in 0..MASK {
                        row[3 + word] |= rows[first][3 + word] & rows[0][1 + word];
                    }
                }
            }
            _ => {}
        }
        task
    }
}

impl Pddl for Wrong {
    fn pddl_read(&self, text: &[u8], waits: &[u8], words: &mut [u64], out: &mut [u64]) -> u64 {
        if *self == ShortOutTaken && out.is_empty() {
            return Fast.pddl_read(text, waits, words, &mut [0]);
        }
        let refusal = Fast.pddl_read(text, waits, words, out);
        match (self, refusal) {
            (OutAfterRefusal, 1..) if !out.is_empty() => out[0] = 0,
            (OutBeyondTheAnswer, 0) => *out.last_mut().expect("a number") = 0,
            (RecordsOff, 0) => out[0] *= ROW as u64,
            _ => {}
        }
        refusal
    }

    fn pddl_write(&self, task: &[u64], text: &mut [u8], waits: &mut [u8], out: &mut [u64]) -> u64 {
        if out.len() < 2 {
            return 14;
        }
        let refused = check(task).err();
        let before = (text.to_vec(), waits.to_vec());
        let told = match refused {
            None => self.instead(task),
            Some(_) => task.to_vec(),
        };
        let returned = match (self, refused) {
            (WriterTaskUnchecked, Some(6)) => give(out, &[0, 0]),
            (WriterRoomBeforeTask, Some(_)) if text.is_empty() => 14,
            (WriterRefusesEnough, None) if told[2] > 200 => 14,
            (WriterWritesAfterRefusal, Some(refusal)) if !text.is_empty() => {
                text[0] = 0;
                refusal
            }
            (WriterShortWaitsTaken, None) => {
                let mut room = vec![0; 1_048_576];
                let returned = Fast.pddl_write(&told, text, &mut room, out);
                if returned == 0 {
                    let length = waits.len().min(room.len());
                    waits[..length].copy_from_slice(&room[..length]);
                }
                returned
            }
            _ => Fast.pddl_write(&told, text, waits, out),
        };
        match (self, returned) {
            (WriterLeavesTheRest, 0) => {
                let (length, count) = (out[0] as usize, out[1] as usize);
                text[length..].copy_from_slice(&before.0[length..]);
                waits[count..].copy_from_slice(&before.1[count..]);
            }
            (WriterLengthOff, 0) => out[1] += 1,
            (WriterJustEnoughRefused, 0) if text.len() as u64 == out[0] => {
                text.copy_from_slice(&before.0);
                waits.copy_from_slice(&before.1);
                return 14;
            }
            _ => {}
        }
        returned
    }
}

#[test]
fn every_wrong_writer_is_found() {
    let unnoticed: Vec<Wrong> = WRONG.into_iter().filter(|wrong| !found(wrong)).collect();
    assert_eq!(unnoticed, []);
}

// ---- the sizes that are reached

/// The fast twin, which notes of each accepted or refused text what it has.
#[derive(Default)]
struct Noting {
    met: Mutex<BTreeMap<&'static str, Vec<usize>>>,
}

impl Noting {
    fn note(&self, what: &'static str, size: usize) {
        self.met.lock().expect("no thread fails").entry(what).or_default().push(size);
    }

    /// How often this size was met.
    fn count(&self, what: &str, size: usize) -> usize {
        let met = self.met.lock().expect("no thread fails");
        met.get(what).map_or(0, |sizes| sizes.iter().filter(|&&met| met == size).count())
    }
}

/// The most parentheses around a place, without those of the sections.
fn depth(text: &[u8]) -> usize {
    let pieces = String::from_utf8_lossy(text).to_ascii_lowercase();
    let (mut open, mut most): (Vec<bool>, usize) = (Vec::new(), 0);
    let mut comment = false;
    for (at, letter) in pieces.char_indices() {
        match letter {
            '\n' => comment = false,
            _ if comment => {}
            ';' => comment = true,
            '(' => {
                let rest = pieces[at + 1..].trim_start_matches([' ', '\t', '\r', '\n']);
                open.push(rest.starts_with("and"));
                most = most.max(open.iter().filter(|&&and| and).count());
            }
            ')' => drop(open.pop()),
            _ => {}
        }
    }
    most
}

/// The longest word.
fn longest_word(text: &[u8]) -> usize {
    text.split(|byte| b" \t\r\n();".contains(byte)).map(<[u8]>::len).max().unwrap_or(0)
}

impl Pddl for Noting {
    fn pddl_read(&self, text: &[u8], waits: &[u8], slice: &mut [u64], out: &mut [u64]) -> u64 {
        let returned = Fast.pddl_read(text, waits, slice, out);
        if let Ok(words) = words(text, waits) {
            self.note("facts", words[0] as usize);
            self.note("members", words[1] as usize);
            self.note("actions", words[2] as usize);
            self.note("bytes", text.len());
            let open = !waits.is_empty() && !waits.ends_with(b"\n");
            let ended = waits.iter().filter(|&&byte| byte == b'\n').count();
            self.note("waits", ended + open as usize);
            self.note("ands", depth(text));
            self.note("word", longest_word(text));
            self.note("slack", slice.len().saturating_sub(words.len()));
        }
        returned
    }

    fn pddl_write(&self, task: &[u64], text: &mut [u8], waits: &mut [u8], out: &mut [u64]) -> u64 {
        let returned = Fast.pddl_write(task, text, waits, out);
        if returned == 0 {
            self.note("written text", out[0] as usize);
            self.note("written waits", out[1] as usize);
            self.note("written actions", task[2] as usize);
        }
        returned
    }
}

/// The cases that are made for a size reach it, on both sides of each limit.
#[test]
fn every_size_is_reached() {
    let noting = Noting::default();
    for (place, &(made, size)) in sizes::list().iter().enumerate() {
        // Random numbers decide on details, so some are tried.
        for round in 0..3 {
            let case = sizes::case(place as u64 + round * sizes::count());
            let mut summary = Summary::default();
            one_pddl(&noting, 1, case, &mut summary);
            assert_eq!(summary.failed, 0, "{made:?} {size}");
        }
    }
    let reached: [(&str, &[usize]); 11] = [
        ("facts", &[1, 2, 7, 8, 9, 31, 32, 33, 63, 64, 65, 127, 128]),
        ("members", &[1, 2, 3, 4, 5, 6, 7, 8]),
        ("actions", &[1, 2, 127, 128, 129, 255, 256]),
        ("bytes", &[257, 1024, 65_535, 65_536, 65_537, 1_048_575, 1_048_576, 1_048_577]),
        ("waits", &[1, 255, 256, 257, 65_535, 65_536, 65_537]),
        ("ands", &[0, 1, 2, 8, 15, 16]),
        ("word", &[255, 256, 257, 10_000, 16_383, 16_384, 16_385]),
        ("slack", &[1, 255, 256, 257, 4095, 4096, 4097]),
        ("written text", &[838_074]),
        ("written waits", &[252_672]),
        ("written actions", &[1, 255, 256]),
    ];
    let missed: Vec<(&str, usize)> = reached
        .iter()
        .flat_map(|&(what, sizes)| sizes.iter().map(move |&size| (what, size)))
        .filter(|&(what, size)| noting.count(what, size) == 0)
        .collect();
    assert_eq!(missed, []);
}
