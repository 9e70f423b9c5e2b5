//! The page: small enough and well formed whatever the names and however long the conflict, nothing
//! that a browser would load or run, and colours that can be read.

use explain::finding::{find, Conflict, Done, Fault, Finding, Taken, Waited, TABLES};
use explain::law::Law;
use explain::names::Names;
use explain::page::page;
use explain::text::text;
use reference::generate::families::small;
use reference::generate::sizes::{amid, fault_after, Fault as Kind};
use reference::generate::Law as Draft;
use reference::laws;
use reference::random::Random;
use std::collections::BTreeMap;

/// A page has fewer bytes.
const MOST: usize = 1_000_000;

/// Elements without an end tag.
const SINGLE: [&str; 2] = ["meta", "!doctype"];

/// The page's elements, counted: each is known and is ended, and text has no markup of its own.
fn elements(page: &str) -> BTreeMap<String, usize> {
    let (_, body) = page.split_once("</style>").expect("a style");
    let (head, _) = page.split_once("<style>").expect("a style");
    let mut counts = BTreeMap::new();
    let mut open: Vec<String> = Vec::new();
    let told = format!("{head}{body}");
    let mut rest = told.as_str();
    while let Some((text, after)) = rest.split_once('<') {
        plain(text);
        let (tag, after) = after.split_once('>').expect("a tag ends");
        assert!(!tag.contains('<'), "{tag}");
        rest = after;
        if let Some(name) = tag.strip_prefix('/') {
            assert_eq!(open.pop().as_deref(), Some(name), "ended in order");
            continue;
        }
        let name = tag.split([' ', '/']).next().unwrap_or("").to_string();
        attributes(tag.strip_prefix(&name).expect("a name").trim_end_matches('/'));
        if !tag.ends_with('/') && !SINGLE.contains(&name.as_str()) {
            open.push(name.clone());
        }
        *counts.entry(name).or_insert(0) += 1;
    }
    plain(rest);
    assert!(open.is_empty(), "{open:?}");
    counts
}

/// Text has no bare markup and no character that controls something.
fn plain(text: &str) {
    assert!(!text.contains('>'), "{text}");
    for part in text.split('&').skip(1) {
        let known = ["amp;", "lt;", "gt;", "quot;", "#39;"];
        assert!(known.iter().any(|name| part.starts_with(name)), "&{part}");
    }
    assert!(text.chars().all(|one| one == '\n' || !one.is_control()), "{text:?}");
}

/// Attributes are NAME="VALUE" or a word, and none names a place, a script or a handler.
fn attributes(tag: &str) {
    let mut rest = tag.trim();
    while !rest.is_empty() {
        let end = rest.find([' ', '=']).unwrap_or(rest.len());
        let (name, after) = rest.split_at(end);
        assert!(!["href", "src", "style", "xlink:href"].contains(&name), "{tag}");
        assert!(!name.starts_with("on"), "{tag}");
        rest = match after.strip_prefix("=\"") {
            Some(value) => value.split_once('"').expect("a value ends").1.trim_start(),
            None => after.trim_start(),
        };
    }
}

fn names(law: &Law, name: impl Fn(&str, usize) -> String) -> Names {
    let kinds = [("fact", law.facts), ("member", law.members), ("action", law.actions)];
    let mut text = String::new();
    for (kind, count) in kinds {
        for number in 0..count {
            text.push_str(&format!("{kind},{number},{}\r\n", name(kind, number)));
        }
    }
    let (names, wrong) = Names::read(text.as_bytes(), law);
    assert!(wrong.is_empty(), "{wrong:?}");
    names
}

fn law(words: Vec<u64>) -> (Law, Finding) {
    let law = Law::new(words);
    let finding = find(&law, TABLES).expect("a finding");
    (law, finding)
}

#[test]
fn generated_laws() {
    let mut lanes = 0;
    for case in 0..1000 {
        let (law, finding) = law(small(&mut Random::new(24, case)));
        let page = page(&law, &Names::none(), "case", &finding).expect("a page");
        assert!(page.len() < MOST);
        let found = elements(&page);
        assert!(found.keys().all(|name| name != "script" && name != "img" && name != "a"));
        let shown = found.contains_key("svg");
        assert_eq!(shown, !matches!(finding, Finding::Robust { .. }));
        lanes += usize::from(shown);
    }
    assert!(lanes > 500);
}

/// Names that are markup stand in the page and in the text as they are, and are no elements.
#[test]
fn markup_in_names() {
    let evil = [
        "<script>alert(1)</script>",
        "\"><img src=x onerror=alert(1)>",
        "&lt;b&gt;",
        "]]>-->",
        "</svg></style><h1>",
        "' onload='x",
        "$(reboot) `id`",
        "{{7*7}}",
    ];
    let (law, finding) = law(laws::l2());
    let clean = page(&law, &Names::none(), "l2", &finding).expect("a page");
    for evil in evil {
        let names = names(&law, |_, _| evil.to_string());
        let page = page(&law, &names, evil, &finding).expect("a page");
        // Lines of text are more where names are longer; all else is as it was.
        let counted = |page: &str| {
            let mut counts = elements(page);
            counts.remove("text");
            counts
        };
        assert_eq!(counted(&page), counted(&clean), "{evil}");
        assert!(!page.contains(evil) || !evil.contains(['<', '"', '\'', '&']), "{evil}");
        let text = text(&law, &names, evil, &finding);
        assert!(text.contains(evil), "{evil}");
    }
}

/// A conflict of so many picks of eight members, each of which changes all of 128 facts. It is
/// made up: it is drawn, and no law has it.
fn made_up(picks: usize) -> (Law, Finding) {
    let ones = u128::MAX / 3;
    let actions = (0..256).map(|action| [action / 32, u128::MAX, u128::MAX, ones, !ones]).collect();
    let draft = Draft { facts: 128, initial: ones, goals: vec![u128::MAX; 8], actions };
    let step = |pick: usize| {
        let (before, after) = if pick.is_multiple_of(2) { (ones, !ones) } else { (!ones, ones) };
        let member = pick * 5 % 8;
        Done { member, action: (32 * member + pick % 32) as u16, before, after }
    };
    let lacks = |member: usize| {
        let taken =
            |fact| Taken { fact, pick: picks * fact as usize / 128, back: Some(member as u16) };
        (member, (32 * member) as u16, (0..128).map(taken).collect())
    };
    let conflict = Conflict {
        picks: (0..picks).map(step).collect(),
        shared: ones,
        left: (0..8).map(|member| vec![(32 * member) as u16; 40]).collect(),
        fault: Fault::Deadlock((0..8).map(lacks).collect()),
        waited: Waited::Same,
    };
    (Law::new(draft.words()), Finding::Conflict(conflict))
}

/// A page is small enough with the longest names, each character of which takes six bytes, and with
/// more picks than the tables have room for.
#[test]
fn small_enough() {
    for picks in [1, 30, 31, 455, 1000, 1365, 2048] {
        let (law, finding) = made_up(picks);
        for name in ["\"", "ab "] {
            let names = names(&law, |_, number| format!("{number}{}", name.repeat(90)));
            let page = page(&law, &names, &name.repeat(80), &finding).expect("a page");
            assert!(page.len() < MOST, "{} bytes", page.len());
            elements(&page);
            // A page that leaves something out says so, as that on many picks does.
            let cut = page.matches("Names and lists are cut").count();
            assert!(cut == 1 || cut == 0 && picks < 455, "{picks} picks");
        }
    }
}

/// Every pick is drawn once for each width, or once in a fold, whatever was left out.
#[test]
fn every_pick_is_drawn() {
    for picks in [1, 2, 10, 15, 16, 29, 30, 31, 32, 63, 64, 200, 512, 680] {
        for kind in [Kind::Collision, Kind::Deadlock] {
            let (law, finding) = law(fault_after(picks, kind).words());
            let page = page(&law, &Names::none(), "", &finding).expect("a page");
            elements(&page);
            for width in ["wide", "narrow"] {
                let drawn: Vec<usize> = numbers(&page, width);
                assert_eq!(drawn, (1..=picks).collect::<Vec<_>>(), "{picks} picks, {width}");
            }
            assert_eq!(page.matches("<details class=\"fold").count(), usize::from(picks > 30));
            assert_eq!(page.matches("class=\"band\"").count(), 2, "the fault, for each width");
        }
    }
    // Eight lanes, for each width.
    let (law, finding) = law(amid(fault_after(200, Kind::Deadlock), 3, 3).words());
    let page = page(&law, &Names::none(), "", &finding).expect("a page");
    let svgs = page.matches("<svg ").count();
    assert_eq!(page.matches("class=\"lane\"").count(), 8 * svgs);
    assert_eq!(numbers(&page, "narrow"), (1..=200).collect::<Vec<_>>());
}

/// The picks' numbers in the drawings of a width, in turn.
fn numbers(page: &str, width: &str) -> Vec<usize> {
    let drawings = page.split("<svg class=\"lanes ").skip(1);
    let of = drawings.filter(|drawing| drawing.starts_with(width));
    of.flat_map(|drawing| {
        let (drawing, _) = drawing.split_once("</svg>").expect("it ends");
        let told = drawing.split("<text class=\"num end\"").skip(1);
        told.map(|told| {
            let (_, told) = told.split_once('>').expect("a tag ends");
            told.split_once('<').expect("text ends").0.parse().expect("a number")
        })
    })
    .collect()
}

// ---- colours

/// The luminance of a colour #rrggbb or #rgb, by WCAG 2.
fn luminance(colour: &str) -> f64 {
    let digits = colour.strip_prefix('#').expect("a colour");
    let digits = if digits.len() == 3 {
        digits.chars().flat_map(|one| [one, one]).collect()
    } else {
        digits.to_string()
    };
    let part = |place: usize| {
        let byte = u8::from_str_radix(&digits[place..place + 2], 16).expect("two digits");
        let part = f64::from(byte) / 255.0;
        if part <= 0.04045 {
            part / 12.92
        } else {
            ((part + 0.055) / 1.055).powf(2.4)
        }
    };
    0.2126 * part(0) + 0.7152 * part(2) + 0.0722 * part(4)
}

fn contrast(one: &str, other: &str) -> f64 {
    let (one, other) = (luminance(one), luminance(other));
    (one.max(other) + 0.05) / (one.min(other) + 0.05)
}

/// Text has a contrast of 4.5 with what it stands on, lines that tell something one of 3: by day,
/// by night and on paper.
#[test]
fn colours_can_be_read() {
    let style = include_str!("../src/style.css");
    let roots: Vec<&str> = style.split(":root{").skip(1).collect();
    assert_eq!(roots.len(), 3, "light, dark and paper");
    for root in roots {
        let (root, _) = root.split_once('}').expect("it ends");
        let colours: BTreeMap<&str, &str> = root
            .split(';')
            .filter_map(|one| one.trim().strip_prefix("--")?.split_once(':'))
            .collect();
        let text = [
            ("ink", &["bg", "lane", "step", "wait", "badbg"][..]),
            ("soft", &["bg", "lane", "badbg"]),
            ("bad", &["bg", "badbg"]),
            ("plusink", &["plus", "bg"]),
            ("minusink", &["minus", "bg"]),
        ];
        let lines =
            [("stepline", &["lane"][..]), ("waitline", &["badbg"]), ("bad", &["lane", "step"])];
        for (least, pairs) in [(4.5, &text[..]), (3.0, &lines[..])] {
            for (front, backs) in pairs {
                for back in *backs {
                    let found = contrast(colours[front], colours[back]);
                    assert!(found >= least, "{front} on {back}: {found:.2}");
                }
            }
        }
    }
}
