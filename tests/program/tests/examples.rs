//! The verdict files of `examples/`, conflicts and all, are those of the second implementation.

use program::file::judge;
use std::fs;
use std::path::Path;

#[test]
fn verdict_files_are_as_the_second_implementation_has_them() {
    let folder = Path::new(env!("CARGO_MANIFEST_DIR")).join("../../examples");
    let mut conflicts = 0;
    for entry in fs::read_dir(&folder).expect("examples/") {
        let name = entry.expect("an entry").file_name().into_string().expect("a plain name");
        let Some(law) = name.strip_suffix(".verdict.csv") else {
            continue;
        };
        let read = |name: &str| fs::read(folder.join(name)).expect("a law and its verdict");
        let judged = judge(&read(&format!("{law}.csv")));
        assert_eq!(judged.check(&read(&name)), Ok(()), "{law}");
        conflicts += usize::from(!judged.file.plans.is_empty());
    }
    assert!(conflicts >= 10, "{conflicts} conflicts");
}
