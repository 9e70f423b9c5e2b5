//! The paper, the fast twin and brute force agree on generated tasks.

use compare::coverage;
use compare::driver::{run, Options};
use compare::operations::sizes;
use reference::fast::Fast;

#[test]
fn the_fast_twin_agrees_with_the_paper() {
    let cases = sizes::case(sizes::count());
    let options = Options { seed: 7, cases, threads: 2, stop: false };
    let summary = run(&Fast, options);
    for (case, failure) in &summary.failures {
        println!("case {case}: {failure}");
    }
    assert_eq!((summary.passed, summary.failed), (options.cases, 0));
    assert_eq!(summary.coverage.missing(coverage::ASKED), Vec::<String>::new());
}
