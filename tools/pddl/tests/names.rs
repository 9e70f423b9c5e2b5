//! The names of a law in PDDL, as an explanation gets them.

use pddl::named;

/// A law of two members, who spell their facts in other letter case.
const LAW: &str = "; two members
(define (domain Shop) (:predicates (File-is-free) (b_2))
 (:action Takes :parameters () :precondition (FILE-IS-FREE) :effect (b_2))
 (:action gives :parameters () :precondition (and) :effect (not (b_2))))
(define (problem one) (:domain shop) (:init (b_2)) (:goal (and)))
(define (domain maker) (:predicates (file-is-free) (B_2))
 (:action takes :parameters () :precondition (and) :effect (and)))
(define (problem two) (:domain maker) (:init (b_2)) (:goal (and)))
";

#[test]
fn facts_members_and_actions_in_order() {
    let lines = [
        "fact,0,File-is-free",
        "fact,1,b_2",
        "member,0,Shop",
        "member,1,maker",
        "action,0,Takes",
        "action,1,gives",
        "action,2,takes",
    ];
    let told: String = lines.iter().map(|line| format!("{line}\r\n")).collect();
    assert_eq!(named(LAW.as_bytes()), Some(told));
}

#[test]
fn a_long_name_is_whole() {
    let long = "n".repeat(10_000);
    let text = LAW.replacen("Takes", &long, 1);
    assert!(named(text.as_bytes()).expect("a law").contains(&format!("action,0,{long}\r\n")));
}

#[test]
fn no_law_has_no_names() {
    assert_eq!(named(b""), None);
    assert_eq!(named(b"(define"), None);
    assert_eq!(named(LAW.replacen(":goal", ":gaol", 1).as_bytes()), None);
}
