//! What is said of a refused law in PDDL: one damaged text for each message, then generated texts,
//! whose diagnosis has to have the refusal's number that the second implementation gives, and a
//! place that is there.

use pddl::{diagnose, member, Source, Trouble};
use reference::generate::pddl::any_text;
use reference::paper::pddl::words;
use reference::random::Random;

/// A law that is taken, a line each so that places are easy to see.
const LAW: &str = "(define (domain d)
 (:predicates (f) (g))
 (:action a
  :parameters ()
  :precondition (f)
  :effect (and (g) (not (f)))))
(define (problem p)
 (:domain d)
 (:init (f))
 (:goal (and (g))))
";

/// The message for the law with the first OLD exchanged for NEW, and for these waits.
fn said(old: &str, new: &str, waits: &str) -> (u64, String) {
    let text = LAW.replacen(old, new, 1);
    assert!(old == new || text != LAW, "{old} stands in the law");
    let trouble = diagnose(text.as_bytes(), waits.as_bytes()).expect("a refusal");
    assert_eq!(words(text.as_bytes(), waits.as_bytes()), Err(trouble.number), "{text}");
    (trouble.number, trouble.message("LAW", "WAITS"))
}

/// A message at a place, `LINE:COLUMN WORD`.
fn message(file: &str, place: &str, expected: &str) -> String {
    let (line, rest) = place.split_once(':').expect("a line");
    let (column, word) = rest.split_once(' ').expect("a column");
    format!("{file}, line {line}, column {column}: {word}: expected {expected}")
}

fn form(old: &str, new: &str, place: &str, expected: &str) {
    assert_eq!(said(old, new, ""), (16, message("LAW", place, expected)));
}

fn name(old: &str, new: &str, place: &str, expected: &str) {
    assert_eq!(said(old, new, ""), (17, message("LAW", place, expected)));
}

fn wait(waits: &str, number: u64, place: &str, expected: &str) {
    assert_eq!(said("", "", waits), (number, message("WAITS", place, expected)));
}

#[test]
fn a_law_that_is_taken_has_no_trouble() {
    assert_eq!(diagnose(LAW.as_bytes(), b"0,0\r\n"), None);
    assert_eq!(member(LAW.as_bytes(), 0).as_deref(), Some("d"));
    assert_eq!(member(LAW.as_bytes(), 1), None);
    assert_eq!(member(b"(", 0), None);
}

#[test]
fn the_form_of_the_text() {
    let all = LAW;
    form(all, "", "1:1 the end", "(define (domain NAME) ..): a law has a member or more");
    form(
        all,
        "; nothing\n",
        "2:1 the end",
        "(define (domain NAME) ..): a law has a member or more",
    );
    form(
        "(define (d",
        "define (d",
        "1:1 define",
        "(define (domain NAME) ..): a law has a member or more",
    );
    form(
        "(define (d",
        "(domain (d",
        "1:2 domain",
        "define in (define (domain NAME) ..): a law has a member or more",
    );
    form("(domain d)", "domain d", "1:9 domain", "(domain NAME)");
    form("(domain d)", "(problem d)", "1:10 problem", "domain in (domain NAME)");
    form("(domain d)", "(domain)", "1:16 )", "the domain's name");
    form("(domain d)", "(domain d e)", "1:19 e", ") after the name in (domain NAME)");
    form("(domain d)", "(domain 0d)", "1:17 0d", "the domain's name; a name begins with a letter");
    form("(domain d)", "(domain And)", "1:17 And", "the domain's name; and and not are no names");
    form(
        "(:predicates (f) (g))",
        "(:requirements :strips)",
        "2:3 :requirements",
        ":predicates in (:predicates (NAME)..)",
    );
    form("(f) (g))", "f)", "2:15 f", "(NAME), or ) to end (:predicates (NAME)..)");
    form("(f) (g))", "(f ?x))", "2:18 ?", "no parameters: the subset has none");
    form(
        "(f) (g))",
        "(f x))",
        "2:18 x",
        ") after the predicate's name; predicates have no parameters",
    );
    form(
        "(f) (g))",
        "(f) (gé))",
        "2:21 <byte 195>",
        "a word of letters, digits, -, _ and :, a blank, a parenthesis or ;",
    );
    form(
        "(:action a",
        "(:types a",
        "3:3 :types",
        ":action, since a domain has (:predicates ..) and then its actions",
    );
    form(
        "(:action a\n",
        "(:action\n",
        "4:3 :parameters",
        "the action's name; a name begins with a letter",
    );
    let colon = "a name has no colon (a blank has to stand before a word that begins with one)";
    let action = format!("the action's name; {colon}");
    form("(:action a\n  :p", "(:action a:p", "3:11 a:parameters", &action);
    form("  :parameters ()\n", "", "4:3 :precondition", ":parameters () after the action's name");
    form(":parameters ()", ":parameters (x)", "4:16 x", ") at once: an action has no parameters");
    form("  :precondition (f)\n", "", "5:3 :effect", ":precondition after :parameters ()");
    form(
        ":precondition (f)",
        ":precondition ()",
        "5:18 )",
        "a condition: (NAME) or (and CONDITION..)",
    );
    form(
        ":precondition (f)",
        ":precondition f",
        "5:17 f",
        "a condition: (NAME) or (and CONDITION..)",
    );
    form(
        ":precondition (f)",
        ":precondition (not (f))",
        "5:18 not",
        "a condition without not, which stands in effects alone",
    );
    form(
        ":precondition (f)",
        ":precondition (or (f))",
        "5:21 (",
        ") after the predicate's name; atoms have no arguments",
    );
    form(
        ":precondition (f)",
        ":precondition (and f)",
        "5:22 f",
        "a condition within and, or ) to end it",
    );
    form("(not (f))", "(not f)", "6:25 f", "an atom after not: (NAME)");
    form(
        "(not (f))",
        "(not (and))",
        "6:26 and",
        "a predicate's name after not; and and not are no names",
    );
    form(
        "(not (f)))))",
        "(not (f))))",
        "7:2 define",
        ":action, since a domain has (:predicates ..) and then its actions",
    );
    form(
        ":effect (and (g) (not (f)))",
        ":effect",
        "6:10 )",
        "an effect: (NAME), (not (NAME)) or (and EFFECT..)",
    );
    form("(define (problem p)", "(define (domain p)", "7:10 domain", "problem in (problem NAME)");
    form(" (:domain d)\n", "", "8:3 :init", ":domain in (:domain NAME)");
    form(" (:init (f))\n", "", "9:3 :goal", ":init in (:init (NAME)..)");
    form(" (:goal (and (g))))\n", ")", "10:1 )", "(:goal CONDITION)");
    form(
        "(and (g))))\n",
        "(and (g)))) x\n",
        "10:21 x",
        "(define (domain NAME) ..) of the next member, or the end",
    );
    form("(and (g))))\n", "(and (g)))", "10:19 the end", ") to end the problem after its goal");
    let deep = "(and ".repeat(17) + &")".repeat(17);
    form("(and (g))", &deep, "10:90 and", "at most 16 and around a place");
    form(
        "(define (d",
        "\u{feff}(define (d",
        "1:1 <byte 239>",
        "a word of letters, digits, -, _ and :, a blank, a parenthesis or ;",
    );
    let long = format!("(domain {}:)", "x".repeat(50));
    let word = format!("1:17 {}..", "x".repeat(40));
    form("(domain d)", &long, &word, &format!("the domain's name; {colon}"));
}

#[test]
fn names_and_limits() {
    name("(f) (g))", "(f) (g) (F))", "2:24 F", "another predicate: named twice, on line 2 before");
    name(":precondition (f)", ":precondition (h)", "5:18 h", "a predicate of domain d (line 2)");
    name("(:init (f))", "(:init (h))", "9:10 h", "a predicate of domain d (line 2)");
    name("(:domain d)", "(:domain e)", "8:11 e", "d, the domain before this problem (line 1)");
    let action = "(:action A :parameters () :precondition (f) :effect (g))\n (:action a\n";
    name("(:action a\n", action, "4:11 a", "another name: named twice, on line 3 before");
    let second = |old: &str, new: &str| LAW.to_string() + &LAW.replacen(old, new, 1);
    name(
        LAW,
        &second("(f) (g))", "(g) (f))"),
        "12:16 g",
        "f (line 2): members have the same predicates in one order",
    );
    name(
        LAW,
        &second("(f) (g))", "(f) (g) (h))"),
        "12:24 h",
        "no predicate that the first member does not have",
    );
    name(
        LAW,
        &second("(f) (g))", "(f))"),
        "12:3 :predicates",
        "g (line 2) too: members have the same predicates in one order",
    );
    name(
        LAW,
        &second("(:init (f))", "(:init (f) (g))"),
        "19:14 g",
        "only facts that hold at first for the first member too (line 9)",
    );
    name(
        LAW,
        &second("(:init (f))", "(:init)"),
        "19:3 :init",
        "f among them, which holds at first for the first member (line 9)",
    );
    let many = |count: usize| (0..count).map(|fact| format!("\n(x{fact})")).collect::<String>();
    let message = said("(f) (g))", &format!("(f) (g){})", many(127)), "");
    let expected = "LAW, line 129, column 2: x126: expected at most 128 predicates";
    assert_eq!(message, (18, expected.to_string()));
    let message = said(LAW, &LAW.repeat(9), "");
    assert_eq!(message, (18, "LAW, line 81, column 17: d: expected at most 8 members".into()));
    let action =
        |name: usize| format!("(:action b{name} :parameters () :precondition (f) :effect (g))\n");
    let actions: String = (0..256).map(action).collect();
    let message = said("(:action a\n", &(actions + "(:action a\n"), "");
    assert_eq!(message, (18, "LAW, line 259, column 10: a: expected at most 256 actions".into()));
    let none =
        "(define (domain d) (:predicates)) (define (problem p) (:domain d) (:init) (:goal (and)))";
    let message = said(LAW, none, "");
    let expected =
        "LAW, line 1, column 21: :predicates: expected a predicate: a law has 1 to 128 facts";
    assert_eq!(message, (2, expected.to_string()));
}

#[test]
fn waits() {
    wait("0,0\n", 15, "1:4 LF", "CR LF at the record's end (./lawcheck --crlf adds the CR)");
    wait("0,0\r\n\r\n", 15, "2:1 CR", "a record: waits have no blank lines");
    wait("0,0\r\n\n", 15, "2:1 LF", "a record: waits have no blank lines");
    wait("0,0\r0,0", 15, "1:4 CR", "LF after CR");
    wait("0", 15, "1:2 the end", "a comma and the fact's number after the action's number");
    wait("0\r\n", 15, "1:2 CR", "a comma and the fact's number after the action's number");
    wait("0,", 15, "1:3 the end", "a number before it");
    wait(",0", 15, "1:1 ,", "a number before it");
    wait("0,0,0", 15, "1:4 ,", "the record's end: a wait has two fields, action and fact");
    wait("0, 0", 15, "1:3 a space", "digits alone");
    wait("0;0", 15, "1:2 ;", "a comma between the fields");
    wait("\"0\",0", 15, "1:1 \"", "digits: fields have no quotes");
    wait(
        "a,f",
        15,
        "1:1 a",
        "an action's number and a fact's number: waits have no header and no names",
    );
    wait("0,-1", 15, "1:3 -", "a digit");
    wait("00,0", 15, "1:1 00", "a number without leading zeros");
    wait(
        "0,18446744073709551616",
        15,
        "1:3 18446744073709551616",
        "a number up to 18446744073709551615",
    );
    wait("0,0\r\n1,0", 17, "2:1 1", "0: the law has one action");
    wait("0,2", 17, "1:3 2", "a number from 0 to 1: the law's facts");
    wait("0,1", 6, "1:3 1", "a precondition of action 0, a of d (line 3); fact 1 is g");
    let none = "(define (domain d) (:predicates (f)))
        (define (problem p) (:domain d) (:init) (:goal (f)))";
    let message = said(LAW, none, "0,0");
    let expected = "WAITS, line 1, column 1: 0: expected no wait: the law has no action";
    assert_eq!(message, (17, expected.to_string()));
}

/// The place is in the text, and the word stands there.
fn stands(trouble: &Trouble, text: &[u8], waits: &[u8]) -> bool {
    let text = if trouble.source == Source::Law { text } else { waits };
    let line = text.split(|&byte| byte == b'\n').nth(trouble.line - 1);
    let Some(line) = line else { return false };
    let Some(rest) = line.get(trouble.column - 1..) else { return false };
    match trouble.word.as_str() {
        "the end" => rest.is_empty(),
        "LF" => rest.is_empty(),
        "CR" | "a tab" | "a space" => true,
        word if word.starts_with("<byte ") => !rest.is_empty(),
        word => {
            let front = word.split('<').next().unwrap_or(word).trim_end_matches("..");
            rest.starts_with(front.as_bytes())
        }
    }
}

#[test]
fn the_number_is_the_refusals_and_the_place_is_there() {
    let mut met = std::collections::BTreeMap::new();
    for case in 0..20_000 {
        let (text, waits) = any_text(&mut Random::new(17, case));
        let found = diagnose(&text, &waits);
        let expected = words(&text, &waits).err();
        assert_eq!(found.as_ref().map(|trouble| trouble.number), expected, "case {case}");
        if let Some(trouble) = found {
            *met.entry(trouble.number).or_insert(0) += 1;
            assert!(stands(&trouble, &text, &waits), "case {case}: {trouble:?}");
            assert!(trouble.said.contains("expected "), "case {case}: {trouble:?}");
        }
    }
    let rare: Vec<u64> =
        [2, 6, 15, 16, 17, 18].into_iter().filter(|number| met.get(number) < Some(&20)).collect();
    assert_eq!(rare, [], "{met:?}");
}
