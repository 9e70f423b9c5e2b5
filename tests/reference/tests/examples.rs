//! The laws of `examples/` that stand there in PDDL too: by the second implementation each reads to
//! the task of its rows, with the actions grouped by member, and so gets the same verdict.

use reference::fast::pddl::{read_by, Right};
use reference::paper::task::ROW;
use reference::paper::{pddl, text};
use std::fs;
use std::path::{Path, PathBuf};

fn folder() -> PathBuf {
    Path::new(env!("CARGO_MANIFEST_DIR")).join("../../examples")
}

/// The names of the laws with this ending.
fn laws(ending: &str) -> Vec<String> {
    let names = fs::read_dir(folder())
        .expect("examples/")
        .map(|entry| entry.expect("an entry").file_name().into_string().expect("a plain name"));
    let mut laws: Vec<String> =
        names.filter_map(|name| Some(name.strip_suffix(ending)?.to_string())).collect();
    laws.sort();
    laws
}

#[test]
fn laws_in_pddl_are_the_tasks_of_their_rows() {
    let told = laws(".pddl");
    for scheme in ["coupons-1", "coupons-2", "tools-", "zenotravel-", "bridge-", "crossroads-"] {
        assert!(told.iter().any(|law| law.starts_with(scheme)), "{scheme} in PDDL");
    }
    assert!(laws(".waits.csv").iter().all(|law| told.contains(law)), "waits have a law");
    for law in told {
        let file = |ending: &str| folder().join(format!("{law}{ending}"));
        let rows = text::words(&fs::read(file(".csv")).expect("its rows")).expect("a text");
        let waits = fs::read(file(".waits.csv")).unwrap_or_default();
        let front = ROW * (1 + rows[1] as usize);
        let waited = rows[front..].chunks(ROW).any(|row| row[3..5] != [0, 0]);
        assert_eq!(
            file(".waits.csv").exists(),
            waited,
            "{law}: waits are told where there are any"
        );
        let text = fs::read(file(".pddl")).expect("the law in PDDL");
        let words = pddl::words(&text, &waits);
        assert_eq!(words, Ok(pddl::grouped(&rows)), "{law}");
        let mut quick = vec![7; rows.len()];
        assert_eq!(read_by::<Right>(&text, &waits, &mut quick), Ok([(rows.len() / ROW) as u64]));
        assert_eq!(Ok(quick), words, "{law}");
        // Its actions stand grouped already, so that also the conflict's numbers are the same.
        assert_eq!(pddl::grouped(&rows), rows, "{law}");
    }
}
