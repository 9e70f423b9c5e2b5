//! Laws in PDDL: worked texts, each refusal on both sides of its edge, the order of refusals, what
//! the words hold afterwards, and the writer.

use reference::fast::pddl::{read_by, texts, Right};
use reference::generate::{pddl as generate, text::of_words};
use reference::interface::{mask_of, ROW, ROWS};
use reference::law::of_rows;
use reference::laws;
use reference::paper::pddl::{grouped, read, words, write};
use reference::paper::task::check;
use reference::random::Random;

/// L1 as a person would write it.
const L1: &str = "
(define (domain retailer)
  (:predicates (file-free) (retailer-has-file) (claim-posted) (maker-has-file) (payment-posted))
  (:action take-file
    :parameters ()
    :precondition (file-free)
    :effect (and (retailer-has-file) (not (file-free))))
  (:action post-claim
    :parameters ()
    :precondition (and (retailer-has-file))
    :effect (and (file-free) (claim-posted) (not (retailer-has-file)))))
(define (problem claim)
  (:domain retailer)
  (:init (file-free))
  (:goal (and (file-free) (claim-posted))))

(define (domain maker)
  (:predicates (file-free) (retailer-has-file) (claim-posted) (maker-has-file) (payment-posted))
  (:action take-file ; the same name in another domain
    :parameters ()
    :precondition (file-free)
    :effect (and (not (file-free)) (maker-has-file)))
  (:action post-payment
    :parameters ()
    :precondition (maker-has-file)
    :effect (and (and (file-free) (payment-posted)) (not (maker-has-file)))))
(define (problem payment)
  (:domain maker)
  (:init (file-free))
  (:goal (and (file-free) (payment-posted))))
";
const L1_WAITS: &str = "0,0\r\n2,0\r\n";

/// What both readers say, which has to be one, with words that hold something before.
fn both(text: &[u8], waits: &[u8], room: usize) -> (Result<usize, u64>, Vec<u64>) {
    let (mut slow, mut quick) = (vec![7; room], vec![7; room]);
    let said = read(text, waits, &mut slow);
    let twin = read_by::<Right>(text, waits, &mut quick).map(|[records]| records as usize);
    assert_eq!((&said, &slow), (&twin, &quick), "{}", String::from_utf8_lossy(text));
    (said, slow)
}

fn refusal(text: &str, waits: &str) -> Result<usize, u64> {
    let (said, words) = both(text.as_bytes(), waits.as_bytes(), ROW * ROWS);
    if said.is_err() {
        assert!(words.iter().all(|&word| word == 0), "zeros after {said:?}");
    }
    said
}

/// A law of one member with these parts.
fn law(predicates: &str, actions: &str, initial: &str, goal: &str) -> String {
    format!(
        "(define (domain d) (:predicates{predicates}){actions})
         (define (problem p) (:domain d) (:init{initial}) (:goal {goal}))"
    )
}

fn with_condition(condition: &str) -> String {
    law(" (f) (g)", "", "", condition)
}

fn with_effect(effect: &str) -> String {
    let action = format!("(:action a :parameters () :precondition (f) :effect {effect})");
    law(" (f) (g)", &action, "", "(f)")
}

const SMALL: &str = "(define (domain d) (:predicates (f)))
    (define (problem p) (:domain d) (:init (f)) (:goal (f)))";

// ---- worked texts

#[test]
fn l1_reads_to_its_words() {
    let (said, words) = both(L1.as_bytes(), L1_WAITS.as_bytes(), 64);
    assert_eq!(said, Ok(7));
    assert_eq!((&words[..63], words[63]), (&laws::l1()[..], 0));
    let (said, words) = both(L1.as_bytes(), b"", 63);
    assert_eq!((said, words), (Ok(7), laws::l2()));
}

#[test]
fn actions_count_on_from_member_to_member() {
    let wait = |waits: &str, action: usize| {
        let words = words(L1.as_bytes(), waits.as_bytes()).unwrap();
        mask_of(&words[ROW * (3 + action) + 3..])
    };
    assert_eq!(wait("2,0", 2), 1);
    assert_eq!(wait("2,0", 0), 0);
    assert_eq!(wait("3,3", 3), 8);
    assert_eq!(refusal(L1, "4,0"), Err(17));
}

#[test]
fn a_condition_is_a_set() {
    let goal = |condition: &str| {
        mask_of(&words(with_condition(condition).as_bytes(), b"").unwrap()[ROW + 1..])
    };
    assert_eq!(goal("(and)"), 0);
    assert_eq!(goal("(f)"), 1);
    assert_eq!(goal("(and (g))"), 2);
    assert_eq!(goal("(and (g) (f) (and (g) (and) (f)))"), 3);
    let effect = |effect: &str| {
        let words = words(with_effect(effect).as_bytes(), b"").unwrap();
        [mask_of(&words[2 * ROW + 5..]), mask_of(&words[2 * ROW + 7..])]
    };
    assert_eq!(effect("(f)"), [1, 0]);
    assert_eq!(effect("(not (f))"), [0, 1]);
    assert_eq!(effect("(and (not (f)) (and (f) (not (g)) (not (f))))"), [1, 3]);
    assert_eq!(effect("(and)"), [0, 0]);
}

#[test]
fn letter_case_and_blanks_do_not_matter() {
    let plain = words(L1.as_bytes(), b"").unwrap();
    let upper = L1.to_ascii_uppercase();
    assert_eq!(words(upper.as_bytes(), b""), Ok(plain.clone()));
    let tight: String = L1.lines().map(|line| line.split(';').next().unwrap()).collect();
    let tight = tight.split_whitespace().collect::<Vec<_>>().join(" ");
    let tight = tight.replace(" (", "(").replace(") ", ")");
    assert_eq!(words(tight.as_bytes(), b""), Ok(plain.clone()));
    for blank in ["\t", "\r", "\n", "\r\n", ";\n", "; (a) \r ) \u{0} é\n"] {
        let loosened = |letter: char| match letter {
            '(' => format!("{blank}({blank}"),
            ' ' => blank.to_string(),
            other => other.to_string(),
        };
        let loose: String = tight.chars().map(loosened).collect();
        assert_eq!(words(loose.as_bytes(), b""), Ok(plain.clone()), "{blank:?}");
    }
}

#[test]
fn a_comment_ends_at_the_lines_end_alone() {
    assert_eq!(refusal(&format!("{SMALL};"), ""), Ok(2));
    assert_eq!(refusal(&format!("{SMALL}; any (thing"), ""), Ok(2));
    assert_eq!(refusal(&format!("; any\r{SMALL}"), ""), Err(16));
    assert_eq!(refusal(&format!("; any\r\n{SMALL}"), ""), Ok(2));
    let (said, _) = both(&[b";\xff\x00\r\n", SMALL.as_bytes()].concat(), b"", 18);
    assert_eq!(said, Ok(2));
    assert_eq!(refusal(&SMALL.replace("define (domain", "define;x\n(domain"), ""), Ok(2));
    assert_eq!(refusal(&SMALL.replace("define", "def;x\nine"), ""), Err(16));
}

// ---- 16

#[test]
fn what_is_outside_the_subset_is_16() {
    for text in ["", " ", "; a comment", ")", "(", "()", "(define)", "x", SMALL.split_at(30).0] {
        assert_eq!(refusal(text, ""), Err(16), "{text}");
    }
    assert_eq!(refusal(SMALL, ""), Ok(2));
    for more in [")", "(", "x", "()", "(define (domain d) (:predicates (f)))"] {
        assert_eq!(refusal(&format!("{SMALL}{more}"), ""), Err(16), "{more}");
    }
    let changes = [
        ("(domain d)", "(domain)"),
        ("(domain d)", "(domain d e)"),
        ("(domain d)", "domain d"),
        ("(domain d)", "(problem d)"),
        ("(:predicates (f))", ""),
        ("(:predicates (f))", "(:predicates f)"),
        ("(:predicates (f))", "(:predicates (f ?x))"),
        ("(:predicates (f))", "(:predicates (f)) (:predicates (f))"),
        ("(:predicates (f))", "(:requirements) (:predicates (f))"),
        ("(:predicates (f))", "(:requirements :strips) (:predicates (f))"),
        ("(:predicates", "(: predicates"),
        ("(:predicates", "(predicates"),
        ("(:domain d)", ""),
        ("(:domain d)", "(:domain d) (:objects)"),
        ("(:init (f))", ""),
        ("(:init (f))", "(:init f)"),
        ("(:init (f))", "(:init (and (f)))"),
        ("(:init (f))", "(:init (not (f)))"),
        ("(:init (f)) (:goal (f))", "(:goal (f)) (:init (f))"),
        ("(:goal (f))", ""),
        ("(:goal (f))", "(:goal)"),
        ("(:goal (f))", "(:goal ())"),
        ("(:goal (f))", "(:goal f)"),
        ("(:goal (f))", "(:goal (f) (f))"),
        ("(:goal (f))", "(:goal (not (f)))"),
        ("(:goal (f))", "(:goal (or (f)))"),
        ("(:goal (f))", "(:goal (and f))"),
        ("(:goal (f))", "(:goal (f))(:metric)"),
    ];
    for (old, new) in changes {
        let text = SMALL.replacen(old, new, 1);
        assert_ne!(text, SMALL, "{old}");
        assert_eq!(refusal(&text, ""), Err(16), "{old} -> {new}");
    }
}

#[test]
fn an_action_has_its_parts_in_order() {
    let action = |parts: &str| refusal(&law(" (f)", &format!("(:action {parts})"), "", "(f)"), "");
    assert_eq!(action("a :parameters () :precondition (f) :effect (f)"), Ok(3));
    for parts in [
        "",
        "a",
        ":parameters () :precondition (f) :effect (f)",
        "a :precondition (f) :effect (f)",
        "a :parameters () :effect (f)",
        "a :parameters () :precondition (f)",
        "a :parameters (?x) :precondition (f) :effect (f)",
        "a :parameters () :effect (f) :precondition (f)",
        "a :precondition (f) :parameters () :effect (f)",
        "a :parameters () :precondition () :effect (f)",
        "a :parameters () :precondition (f) :effect ()",
        "a :parameters () :precondition (not (f)) :effect (f)",
        "a :parameters () :precondition (and (not (f))) :effect (f)",
        "a :parameters () :precondition (f) :effect (not (not (f)))",
        "a :parameters () :precondition (f) :effect (not (and (f)))",
        "a :parameters () :precondition (f) :effect (not (and))",
        "a :parameters () :precondition (f) :effect (not f)",
        "a :parameters () :precondition (f) :effect (not)",
        "a :parameters () :precondition (f) :effect (not (f) (f))",
        "a :parameters () :precondition (f) :effect (f) (f)",
        "a:parameters () :precondition (f) :effect (f)",
    ] {
        assert_eq!(action(parts), Err(16), "{parts}");
    }
}

#[test]
fn names_are_letters_digits_and_two_signs() {
    let named = |name: &str| {
        let text = format!(
            "(define (domain d) (:predicates ({name})))
             (define (problem p) (:domain d) (:init) (:goal ({name})))"
        );
        refusal(&text, "")
    };
    let long = "x".repeat(10_000);
    for name in ["a", "Z", "a-", "a_", "a0", "A-_9", "define", "domain", "ands", "nota", &long] {
        assert_eq!(named(name), Ok(2), "{name}");
    }
    for name in
        ["0", "0a", "-", "-a", "_a", "a:", ":a", "a:b", "a.b", "a,b", "?a", "\"a\"", "é", "a b"]
    {
        assert_eq!(named(name), Err(16), "{name}");
    }
    for name in ["and", "AND", "aNd", "not", "NOT"] {
        assert_eq!(named(name), Err(16), "{name}");
        for place in ["(domain d)", "(problem p)", "(:domain d)"] {
            let text = SMALL
                .replace(place, &place.replace(" d)", " p)").replace("p)", &format!("{name})")));
            assert_eq!(refusal(&text, ""), Err(16), "{place} {name}");
        }
        let action = format!("(:action {name} :parameters () :precondition (f) :effect (f))");
        assert_eq!(refusal(&law(" (f)", &action, "", "(f)"), ""), Err(16));
    }
}

#[test]
fn every_byte_outside_words_is_16() {
    for byte in 0..=255u8 {
        let text = [SMALL.as_bytes(), &[byte]].concat();
        let expected = if b" \t\r\n;".contains(&byte) { Ok(2) } else { Err(16) };
        assert_eq!(both(&text, b"", 18).0, expected, "byte {byte}");
        // Within a name, letters, digits and the two signs make another name.
        let text = SMALL.replace("(f)", "(f@)").into_bytes();
        let text: Vec<u8> = text.iter().map(|&at| if at == b'@' { byte } else { at }).collect();
        let same = byte.is_ascii_alphanumeric() || b" \t\r\n-_".contains(&byte);
        let expected = if same { Ok(2) } else { Err(16) };
        assert_eq!(both(&text, b"", 18).0, expected, "byte {byte} in a name");
    }
}

#[test]
fn sixteen_ands_and_no_more() {
    let deep = |depth: usize, inner: &str| {
        format!("{}{inner}{}", "(and ".repeat(depth), ")".repeat(depth))
    };
    for (depth, inner, expected) in [
        (16, "(f)", Ok(2)),
        (17, "(f)", Err(16)),
        (15, "(and)", Ok(2)),
        (16, "(and)", Err(16)),
        (16, "", Ok(2)),
        (17, "", Err(16)),
    ] {
        let text = with_condition(&deep(depth, inner));
        assert_eq!(refusal(&text, ""), expected, "{depth} {inner}");
        let text = with_effect(&deep(depth, inner));
        assert_eq!(refusal(&text, ""), expected.map(|records: usize| records + 1));
    }
    assert_eq!(refusal(&with_effect(&deep(16, "(not (f))")), ""), Ok(3));
    assert_eq!(refusal(&with_effect(&deep(17, "(not (f))")), ""), Err(16));
    // Side by side is not deep.
    assert_eq!(refusal(&with_condition(&format!("(and {})", "(and) ".repeat(40))), ""), Ok(2));
    let wide = format!("(and {} {})", deep(15, "(f)"), deep(15, "(g)"));
    assert_eq!(refusal(&with_condition(&wide), ""), Ok(2));
}

// ---- 17

#[test]
fn unknown_names_are_17() {
    assert_eq!(refusal(&law(" (f)", "", " (g)", "(f)"), ""), Err(17));
    assert_eq!(refusal(&law(" (f)", "", "", "(g)"), ""), Err(17));
    assert_eq!(refusal(&law(" (f)", "", "", "(and (and (f) (g)))"), ""), Err(17));
    let action = |pre: &str, effect: &str| {
        let action = format!("(:action a :parameters () :precondition {pre} :effect {effect})");
        refusal(&law(" (f)", &action, "", "(f)"), "")
    };
    assert_eq!(action("(f)", "(F)"), Ok(3));
    assert_eq!(action("(g)", "(f)"), Err(17));
    assert_eq!(action("(f)", "(g)"), Err(17));
    assert_eq!(action("(f)", "(not (g))"), Err(17));
    assert_eq!(refusal(&SMALL.replace("(:domain d)", "(:domain e)"), ""), Err(17));
    assert_eq!(refusal(&SMALL.replace("(:domain d)", "(:domain D)"), ""), Ok(2));
    assert_eq!(refusal(&SMALL.replace("(:domain d)", "(:domain p)"), ""), Err(17));
}

#[test]
fn a_problem_is_of_the_domain_before_it() {
    let one = SMALL.replace(" d)", " one)");
    let two = SMALL.replace(" d)", " two)");
    assert_eq!(refusal(&format!("{one}{two}"), ""), Ok(3));
    assert_eq!(refusal(&format!("{one}{one}"), ""), Ok(3));
    let swapped = two.replace("(:domain two)", "(:domain one)");
    assert_eq!(refusal(&format!("{one}{swapped}"), ""), Err(17));
}

#[test]
fn names_twice_are_17() {
    assert_eq!(refusal(&law(" (f) (f)", "", "", "(f)"), ""), Err(17));
    assert_eq!(refusal(&law(" (f) (F)", "", "", "(f)"), ""), Err(17));
    let action =
        |name: &str| format!("(:action {name} :parameters () :precondition (f) :effect (f))");
    let two = |one: &str, other: &str| {
        refusal(&law(" (f)", &(action(one) + &action(other)), "", "(f)"), "")
    };
    assert_eq!(two("a", "b"), Ok(4));
    assert_eq!(two("a", "a"), Err(17));
    assert_eq!(two("a", "A"), Err(17));
    // Predicates, actions and domains have separate names.
    assert_eq!(two("f", "d"), Ok(4));
    // In two domains it is no fault.
    let member = law(" (f)", &action("a"), "", "(f)");
    assert_eq!(refusal(&format!("{member}{member}"), ""), Ok(5));
}

#[test]
fn members_have_the_same_predicates_and_initial_facts() {
    let member = |predicates: &str, initial: &str| law(predicates, "", initial, "(and)");
    let first = member(" (f) (g)", " (f) (g)");
    for (predicates, initial, expected) in [
        (" (f) (g)", " (f) (g)", Ok(3)),
        (" (F) (G)", " (g) (f)", Ok(3)),
        (" (f) (g)", " (g) (f) (G)", Ok(3)),
        (" (g) (f)", " (f) (g)", Err(17)),
        (" (f)", " (f)", Err(17)),
        (" (f) (g) (h)", " (f) (g)", Err(17)),
        (" (f) (h)", " (f)", Err(17)),
        (" (f) (g)", " (f)", Err(17)),
        (" (f) (g)", "", Err(17)),
    ] {
        let text = first.clone() + &member(predicates, initial);
        assert_eq!(refusal(&text, ""), expected, "{predicates};{initial}");
        let text = member(predicates, initial) + &first;
        assert_eq!(refusal(&text, ""), expected, "{predicates};{initial}");
    }
}

#[test]
fn numbers_of_waits() {
    assert_eq!(refusal(L1, "0,0"), Ok(7));
    assert_eq!(refusal(L1, "0,0\r\n0,0\r\n"), Ok(7));
    assert_eq!(refusal(L1, "3,0"), Err(6));
    assert_eq!(refusal(L1, "4,0"), Err(17));
    assert_eq!(refusal(L1, "0,4"), Err(6));
    assert_eq!(refusal(L1, "0,5"), Err(17));
    assert_eq!(refusal(L1, "18446744073709551615,0"), Err(17));
    assert_eq!(refusal(L1, "0,18446744073709551615"), Err(17));
    assert_eq!(refusal(SMALL, "0,0"), Err(17));
}

// ---- 15

#[test]
fn waits_are_records_of_two_fields() {
    for waits in ["", "0,0", "0,0\r\n", "0,0\r\n2,0", "0,0\r\n2,0\r\n"] {
        assert_eq!(refusal(L1, waits), Ok(7), "{waits:?}");
    }
    for waits in [
        "\r\n",
        "0",
        "0,",
        ",0",
        "0,0,0",
        "0,0\n",
        "0,0\r",
        "0,0\r\n\r\n",
        "0, 0",
        "00,0",
        "0,01",
        "0,-1",
        "+0,0",
        "0,0;",
        "0,18446744073709551616",
        "99999999999999999999,0",
        "a,0",
        "\"0\",0",
        " 0,0",
        "action,fact\r\n0,0",
        "0,0\r\r\n",
        "0,0\n2,0",
    ] {
        assert_eq!(refusal(L1, waits), Err(15), "{waits:?}");
    }
    // Any number of records, also more than a text of rows may have.
    assert_eq!(refusal(L1, &"0,0\r\n".repeat(70_000)), Ok(7));
}

// ---- 18 and the task check

fn sized(facts: usize, members: usize, actions: usize) -> String {
    let predicates: String = (0..facts).map(|fact| format!(" (f{fact})")).collect();
    let own = |member: usize| {
        let count = (actions + members - 1 - member) / members;
        let action = |number| {
            format!("(:action a{number} :parameters () :precondition (and) :effect (and))")
        };
        (0..count).map(action).collect::<String>()
    };
    (0..members).map(|member| law(&predicates, &own(member), "", "(and)")).collect()
}

#[test]
fn the_limits_of_a_task_are_18() {
    assert_eq!(refusal(&sized(128, 8, 256), ""), Ok(265));
    assert_eq!(refusal(&sized(65, 1, 0), ""), Ok(2));
    assert_eq!(refusal(&sized(129, 1, 0), ""), Err(18));
    assert_eq!(refusal(&sized(1, 9, 0), ""), Err(18));
    assert_eq!(refusal(&sized(1, 8, 257), ""), Err(18));
    assert_eq!(refusal(&sized(1, 1, 257), ""), Err(18));
    assert_eq!(refusal(&sized(0, 1, 0), ""), Err(2));
    assert_eq!(refusal(&sized(0, 9, 0), ""), Err(18));
    // Numbers are known by the text's counts, also past a limit.
    assert_eq!(refusal(&sized(130, 1, 300), "299,129"), Err(18));
    assert_eq!(refusal(&sized(130, 1, 300), "300,129"), Err(17));
    assert_eq!(refusal(&sized(130, 1, 300), "299,130"), Err(17));
    // Initial facts past 128 are told apart too.
    let last = |holds: &str| sized(129, 1, 0).replace("(:init)", &format!("(:init{holds})"));
    assert_eq!(refusal(&(last(" (f128)") + &last(" (f128)")), ""), Err(18));
    assert_eq!(refusal(&(last(" (f128)") + &last("")), ""), Err(17));
}

/// The last of 64, 65 and 128 facts: its bit, in every mask of the task.
#[test]
fn facts_stand_in_two_words() {
    for (facts, bit) in [(64, [1 << 63, 0]), (65, [0, 1]), (128, [0, 1 << 63])] {
        let predicates: String = (0..facts).map(|fact| format!(" (f{fact})")).collect();
        let last = format!("(f{})", facts - 1);
        let action =
            format!("(:action a :parameters () :precondition {last} :effect (not {last}))");
        let text = law(&predicates, &action, &last, &last);
        let (said, words) = both(text.as_bytes(), format!("0,{}", facts - 1).as_bytes(), 27);
        assert_eq!(said, Ok(3), "{facts} facts");
        assert_eq!(words[..5], [facts, 1, 1, bit[0], bit[1]]);
        assert_eq!(words[9..12], [0, bit[0], bit[1]]);
        assert_eq!(words[18..], [0, bit[0], bit[1], bit[0], bit[1], 0, 0, bit[0], bit[1]]);
    }
}

#[test]
fn a_wait_is_a_precondition() {
    let action = "(:action a :parameters () :precondition (f) :effect (g))";
    let text = law(" (f) (g)", action, "", "(g)");
    assert_eq!(refusal(&text, "0,0"), Ok(3));
    assert_eq!(refusal(&text, "0,1"), Err(6));
}

// ---- the order of refusals, and the words afterwards

#[test]
fn refusals_come_in_the_written_order() {
    let outside = "(";
    let unknown = law(" (f)", "", " (g)", "(f)");
    let many = sized(129, 1, 1);
    let wrong = SMALL.replace("(:predicates (f))", "(:predicates)").replace("(f)", "(and)");
    let wrong = wrong.replace("(:init (and))", "(:init)");
    // 15 before 16, 17, 18 and the task check.
    for text in [outside, &unknown, &many, &wrong] {
        assert_eq!(refusal(text, "x"), Err(15));
    }
    // 16 over the whole text before 17: a first member that is misnamed, then a bad text.
    assert_eq!(refusal(&format!("{unknown}{outside}"), "9,9"), Err(16));
    assert_eq!(refusal(&format!("{many}{outside}"), "9,9"), Err(16));
    assert_eq!(refusal(&format!("{wrong}{outside}"), ""), Err(16));
    // 17 over all before 18, and before the task check.
    assert_eq!(refusal(&many, "9,9"), Err(17));
    assert_eq!(refusal(&sized(129, 9, 257).replacen("(and))", "(g))", 1), ""), Err(17));
    assert_eq!(refusal(&wrong, "0,0"), Err(17));
    // 18 before the task check: too many members and no facts; a wait that is no precondition.
    assert_eq!(refusal(&sized(0, 9, 0), ""), Err(18));
    assert_eq!(refusal(&many, "0,0"), Err(18));
    // The task check's 2 before its 6.
    assert_eq!(refusal(&sized(0, 1, 1), ""), Err(2));
    // 14 last.
    for (text, waits, expected) in [
        (outside, "x", 15),
        (outside, "", 16),
        (unknown.as_str(), "", 17),
        (many.as_str(), "", 18),
        (wrong.as_str(), "", 2),
        (L1, "0,4", 6),
        (L1, "", 14),
    ] {
        for room in [0, 1, 18, 62] {
            let (said, words) = both(text.as_bytes(), waits.as_bytes(), room);
            assert_eq!(said, Err(expected));
            let left = if expected == 14 { 7 } else { 0 };
            assert_eq!(words, vec![left; room], "after {expected}");
        }
    }
}

#[test]
fn a_word_slice_shorter_than_the_task_is_14() {
    for room in [0, 1, 35, 62] {
        assert_eq!(both(L1.as_bytes(), b"", room), (Err(14), vec![7; room]));
    }
    assert_eq!(both(L1.as_bytes(), b"", 63), (Ok(7), laws::l2()));
    let mut longer = laws::l2();
    longer.extend([0; 9]);
    assert_eq!(both(L1.as_bytes(), b"", 72), (Ok(7), longer));
    assert_eq!(both(SMALL.as_bytes(), b"", 18).0, Ok(2));
}

// ---- the writer

#[test]
fn the_writers_spelling() {
    let law = of_rows(&[[2, 1, 1, 1, 0], [0, 2, 0, 0, 0], [0, 1, 1, 2, 1]]);
    let expected = "(define (domain member0)\n (:predicates (f0) (f1))\n (:action a0\n  \
        :parameters ()\n  :precondition (and (f0))\n  :effect (and (f1) (not (f0)))))\n\
        (define (problem member0)\n (:domain member0)\n (:init (f0))\n (:goal (and (f1))))\n";
    let (mut text, mut waits) = (vec![7; 400], vec![7; 9]);
    let lengths = [expected.len(), 5];
    assert_eq!(write(&law, &mut text, &mut waits), Ok(lengths));
    assert_eq!(std::str::from_utf8(&text[..lengths[0]]), Ok(expected));
    assert_eq!(&waits[..5], b"0,0\r\n");
    assert!(text[lengths[0]..].iter().chain(&waits[5..]).all(|&byte| byte == 0));
    assert_eq!(texts(&law), Ok([expected.as_bytes().to_vec(), b"0,0\r\n".to_vec()]));
}

#[test]
fn written_and_read_back_it_is_the_grouped_task() {
    for law in laws::valid() {
        let [text, waits] = texts(&law).unwrap();
        assert_eq!(words(&text, &waits), Ok(grouped(&law)));
    }
    // Actions of two members in turn; a fact that is added and deleted; all 128 facts.
    let rows = [
        [128, 2, 4, u128::MAX, 0],
        [0, 1 << 127, 0, 0, 0],
        [1, u128::MAX, 0, 0, 0],
        [1, u128::MAX, u128::MAX, u128::MAX, u128::MAX],
        [0, 1, 0, 1 << 64, 1 << 64],
        [1, 0, 0, 0, 0],
        [0, 3, 2, 1, 3],
    ];
    let task = of_rows(&rows);
    let [text, waits] = texts(&task).unwrap();
    let order = [rows[0], rows[1], rows[2], rows[4], rows[6], rows[3], rows[5]];
    assert_eq!(words(&text, &waits), Ok(of_rows(&order)));
    assert_eq!(grouped(&task), of_rows(&order));
    assert!(waits.starts_with(b"1,1\r\n2,0\r\n"));
}

#[test]
fn the_writers_refusals_write_nothing() {
    let l1 = laws::l1();
    let told = texts(&l1).unwrap();
    let lengths = [told[0].len(), told[1].len()];
    for (task, lent, expected) in [
        (&l1[..], lengths, Ok(lengths)),
        (&l1, [lengths[0] - 1, lengths[1]], Err(14)),
        (&l1, [lengths[0], lengths[1] - 1], Err(14)),
        (&l1, [0, 0], Err(14)),
        (&l1[..62], lengths, Err(1)),
        (&l1[..62], [0, 0], Err(1)),
        (&laws::l12()[..], [0, 0], Err(6)),
    ] {
        let (mut text, mut waits) = (vec![7; lent[0]], vec![7; lent[1]]);
        assert_eq!(write(task, &mut text, &mut waits), expected);
        if expected.is_err() {
            assert_eq!((text, waits), (vec![7; lent[0]], vec![7; lent[1]]));
        } else {
            assert_eq!([text, waits], told);
        }
    }
}

/// The longest texts of all tasks: everything that can be written is.
#[test]
fn no_task_needs_more_than_1_048_576_bytes() {
    let full = u128::MAX;
    let mut rows = vec![[128, 8, 256, full, 0]];
    rows.extend((0..8).map(|member| [member, full, 0, 0, 0]));
    rows.extend((0..256).map(|action| [action % 8, full, full, full, full]));
    let [text, waits] = texts(&of_rows(&rows)).unwrap();
    assert_eq!((text.len(), waits.len()), (838_074, 252_672));
    assert_eq!(words(&text, &waits), Ok(grouped(&of_rows(&rows))));
}

// ---- generated texts

/// Every task, in any spelling, reads to its words with the actions grouped.
#[test]
fn spellings_read_to_the_same_task() {
    use reference::generate::families;
    for case in 0..3000 {
        let mut random = Random::new(5, case);
        let task = match random.below(20) {
            0 => families::at_the_limits(&mut random),
            _ => families::small(&mut random),
        };
        assert!(check(&task).is_ok());
        let draft = generate::of_words(&mut random, &task);
        let spelling = generate::any_spelling(&mut random);
        let text = generate::spelled(&mut random, &generate::pieces(&draft), spelling);
        let waits = generate::waits(&mut random, &draft);
        let (said, words) = both(&text, &waits, ROW * ROWS);
        assert_eq!(said, Ok(task.len() / ROW), "case {case}: {}", of_words(&task));
        assert_eq!(words[..task.len()], grouped(&task), "case {case}");
    }
}
