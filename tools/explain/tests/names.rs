//! Names: what a names file gives, what is passed over, and that nothing in it does harm.

use explain::finding::{find, TABLES};
use explain::law::Law;
use explain::names::{clean, Names};
use explain::text::text;
use reference::laws;

fn read(text: &[u8]) -> (Law, Names, Vec<String>) {
    let law = Law::new(laws::l2());
    let (names, wrong) = Names::read(text, &law);
    (law, names, wrong)
}

#[test]
fn a_names_file() {
    let text = b"fact,0,file is free\r\nmember,1,maker\naction,2,maker takes, the file\r\n\r\n";
    let (law, names, wrong) = read(text);
    assert!(wrong.is_empty(), "{wrong:?}");
    assert_eq!(names.fact(0), "file is free");
    assert_eq!(names.fact(1), "fact 1");
    assert_eq!((names.member(0), names.member(1)), ("member 0".into(), "maker".into()));
    assert_eq!(names.action(2), "maker takes, the file");
    assert_eq!(names.step(&law, 2), "maker takes, the file", "it begins with the member's name");
    assert_eq!(names.step(&law, 3), "maker: action 3");
    let (_, names, wrong) = read(b"fact,0,\"free, \"\"the file\"\"\"\nfact,1,\"\nfact,2,\"a\"b\n");
    assert!(wrong.is_empty(), "{wrong:?}");
    assert_eq!(names.fact(0), "free, \"the file\"");
    assert_eq!((names.fact(1), names.fact(2)), ("\"".into(), "\"a\"b".into()));
    // A name that only begins like the member's is told with it.
    let (law, names, _) = read(b"member,1,ma\naction,2,maker takes\n");
    assert_eq!(names.step(&law, 2), "ma: maker takes");
}

#[test]
fn lines_that_are_passed_over() {
    for (line, why) in [
        ("fact", "it is not KIND,NUMBER,NAME"),
        ("fact,0", "it is not KIND,NUMBER,NAME"),
        ("goal,0,x", "its kind is not fact, member or action"),
        ("fact,5,x", "the law has no such fact"),
        ("member,2,x", "the law has no such member"),
        ("action,4,x", "the law has no such action"),
        ("action,-1,x", "the law has no such action"),
        ("action,99999999999999999999,x", "the law has no such action"),
        ("fact,0,", "the name is empty"),
        ("fact,0, \t ", "the name is empty"),
    ] {
        let (_, names, wrong) = read(format!("fact,1,one\n{line}\nfact,2,two").as_bytes());
        assert_eq!(wrong, [format!("line 2: {why}")]);
        assert_eq!(
            (names.fact(0), names.fact(1), names.fact(2)),
            ("fact 0".into(), "one".into(), "two".into())
        );
    }
    let (_, names, wrong) = read(b"fact,0,one\nfact,0,two\n");
    assert_eq!(
        (names.fact(0), wrong),
        ("one".into(), vec!["line 2: fact 0 has a name already".into()])
    );
    let (_, _, wrong) = read("x\n".repeat(100).as_bytes());
    assert_eq!(wrong.len(), 4);
    assert_eq!(wrong[3], "97 more lines are passed over");
}

/// No name moves a cursor, ends a line or turns the reading order, and a long one is cut.
#[test]
fn names_are_cleaned() {
    assert_eq!(clean(b"\x1b[2J\x1b]0;x\x07red"), "\u{fffd}[2J\u{fffd}]0;x\u{fffd}red");
    assert_eq!(clean(b"a\tb\rc\x00d\x7fe"), "a b\u{fffd}c\u{fffd}d\u{fffd}e");
    assert_eq!(
        clean("a\u{202e}b\u{200b}c\u{2028}d\u{9b}e".as_bytes()),
        "a\u{fffd}b\u{fffd}c\u{fffd}d\u{fffd}e"
    );
    assert_eq!(clean(b"\xff\xfea"), "\u{fffd}\u{fffd}a");
    assert_eq!(clean("  M\u{fc}ller\u{a0}&  Co ".as_bytes()), "M\u{fc}ller & Co");
    let long = clean("x".repeat(1 << 20).as_bytes());
    assert_eq!((long.chars().count(), long.chars().last()), (80, Some('…')));
    assert_eq!(clean("x".repeat(80).as_bytes()), "x".repeat(80));
}

/// Every byte but CR and LF in a name: the text has no other control character than LF.
#[test]
fn any_bytes() {
    let mut file = Vec::new();
    for (place, kind) in [("fact", 5), ("member", 2), ("action", 4)] {
        for number in 0..kind {
            file.extend(format!("{place},{number},").bytes());
            file.extend((0..=255).filter(|byte| ![b'\r', b'\n'].contains(byte)));
            file.push(b'\n');
        }
    }
    // And a megabyte more.
    file.extend("fact,1,".bytes().chain(vec![7; 1 << 20]));
    let (law, names, wrong) = read(&file);
    assert_eq!(wrong, ["line 12: fact 1 has a name already"]);
    let finding = find(&law, TABLES).expect("a finding");
    let told = text(&law, &names, "", &finding);
    assert!(told.chars().all(|one| one == '\n' || !one.is_control()));
    assert!(told.len() < 10_000, "{}", told.len());
}
