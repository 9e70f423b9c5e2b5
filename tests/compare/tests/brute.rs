//! Brute force alone finds verdicts whose fault is told after more picks than there have to be, or
//! with another mask of what is missing.

use compare::operations::verdict::beside_brute_force;
use reference::fast::{Fast, Judged};
use reference::generate::families::tiny;
use reference::interface::{out_length, Interface};
use reference::random::Random;
use reference::wrong;
use reference::wrong::changed::Teller;
use reference::wrong::masks::{self, Instead, Mask};

/// The numbers of a verdict and the ends of its plans, with room for any small law.
fn verdict(by: &impl Interface, words: &[u64]) -> (Judged, [u64; 8]) {
    let (mut out, mut ends) = ([0; out_length::VERDICT], [0; 8]);
    let refusal = by.verdict(
        words,
        &mut [0; 1200],
        &mut [0; 600],
        &mut [0; 4000],
        &mut [0; 2000],
        &mut [0; 2000],
        &mut ends,
        &mut [0; 1000],
        &mut out,
    );
    assert_eq!(refusal, 0);
    (out, ends)
}

#[test]
fn a_fault_after_fewer_picks_is_found() {
    let other = |name: &str| *wrong::ALL.iter().find(|wrong| wrong.name == name).expect(name);
    let late = ["LastRow", "LongWalk"].map(other);
    let mut found = [0; 2];
    let mut conflicts = 0;
    for case in 0..15_000 {
        let words = tiny(&mut Random::new(31, case)).words();
        let (numbers, ends) = verdict(&Fast, &words);
        assert_eq!(beside_brute_force(&words, numbers, &ends), Ok(()), "case {case}");
        conflicts += usize::from(numbers[0] > 1);
        for (late, found) in late.iter().zip(&mut found) {
            let (told, ends) = verdict(late, &words);
            if told[2] > numbers[2] {
                *found += usize::from(beside_brute_force(&words, told, &ends).is_err());
            }
        }
    }
    assert!(conflicts >= 100, "{conflicts} conflicts");
    assert!(found.iter().all(|&count| count >= 5), "found: {found:?}");
}

/// Brute force finds a mask that no run lacks.
#[test]
fn another_mask_is_found() {
    let twins = masks::of(Teller::Verdict);
    let is = |mask: &&Mask| matches!(mask.instead, Instead::Preconditions | Instead::Lacking);
    for mask in twins.iter().filter(is) {
        let found = (0..15_000).filter(|&case| {
            let words = tiny(&mut Random::new(31, case)).words();
            let (told, ends) = verdict(&mask.twin(), &words);
            let right = verdict(&Fast, &words).0 == told;
            !right && beside_brute_force(&words, told, &ends).is_err()
        });
        let found = found.count();
        assert!(found >= 10, "{:?}: {found}", mask.instead);
    }
}
