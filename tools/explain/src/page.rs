//! The explanation as a page: one file of HTML with its style and its drawings, without script and
//! without anything that it would have to load.

use crate::chart::{escaped, Chart, Detail, Part};
use crate::finding::{Conflict, Done, Failure, Finding, Nearest};
use crate::law::Law;
use crate::names::Names;
use crate::words::{many, Words, FIRST_CONFLICT};
use lawcheck::{facts, Mask};
use std::ops::Range;

/// A page has fewer bytes.
const MOST: usize = 1_000_000;
/// Conflicts of more picks are folded: of theirs the first and last ones are shown, those that took
/// away what is lacking, as many as `KEY`, and one around each.
const WHOLE: usize = 30;
const FIRST: usize = 5;
const LAST: usize = 8;
const KEY: usize = 12;
/// Fewer picks than that are not folded.
const FOLDED: usize = 6;
/// The most picks of a drawing, of the one with the end, and of one in a fold: sheets of paper end
/// between two drawings.
const DRAWN: usize = 2;
const DRAWN_LAST: usize = 1;
const DRAWN_FOLDED: usize = 40;
/// The most facts of a list that stands open.
const LISTED: usize = 16;

/// How much a page tells: less, until it is small enough.
#[derive(Clone, Copy)]
struct Level {
    /// The most characters of a name.
    name: usize,
    /// The most changes that are shown of a pick.
    changes: usize,
    /// Folded picks are drawn for wide screens too.
    both: bool,
    /// Folded picks stand in the table.
    rows: bool,
    /// Folded picks show names and changes.
    folds: bool,
    /// The most names of a list in a sentence, and the most steps left of a member.
    list: usize,
    left: usize,
}

const ALL: usize = usize::MAX;
#[rustfmt::skip]
const LEVELS: [Level; 5] = [
    Level { name: 80, changes: 12, both: true, rows: true, folds: true, list: ALL, left: ALL },
    Level { name: 80, changes: 12, both: false, rows: true, folds: true, list: ALL, left: ALL },
    Level { name: 60, changes: 12, both: false, rows: false, folds: true, list: ALL, left: 200 },
    Level { name: 24, changes: 4, both: false, rows: false, folds: true, list: 40, left: 100 },
    Level { name: 12, changes: 2, both: false, rows: false, folds: false, list: 16, left: 50 },
];

/// What a page says that leaves something out.
const CUT: &str =
    "Names and lists are cut here, so that the page stays small; ./lawcheck --explain \
                   without --html tells everything.";

const STYLE: &str = include_str!("style.css");

/// The page on a law with this title, which may be empty.
pub fn page(law: &Law, names: &Names, title: &str, finding: &Finding) -> Result<String, Failure> {
    for level in LEVELS {
        let names = names.cut(level.name);
        let words = Words { law, names: &names, quotes: ["“", "”"], most: level.list };
        let page = Page { words, title, finding, level }.html();
        if page.len() < MOST {
            return Ok(page);
        }
    }
    Err(Failure::Broken(format!("the page would have {MOST} bytes or more")))
}

struct Page<'a> {
    words: Words<'a>,
    title: &'a str,
    finding: &'a Finding,
    level: Level,
}

/// A stretch of picks.
#[derive(Clone, Debug, PartialEq)]
struct Stretch {
    rows: Range<usize>,
    folded: bool,
}

/// The stretches of so many picks, of which these are to be seen.
fn stretches(count: usize, key: &[usize]) -> Vec<Stretch> {
    let near = |row: usize| key.iter().take(KEY).any(|&one| row.abs_diff(one) <= 1);
    let seen = |row: usize| count <= WHOLE || row < FIRST || row + LAST >= count || near(row);
    let mut all: Vec<Stretch> = Vec::new();
    for row in 0..count {
        let folded = !seen(row);
        match all.last_mut() {
            Some(last) if last.folded == folded => last.rows.end = row + 1,
            _ => all.push(Stretch { rows: row..row + 1, folded }),
        }
    }
    let mut joined: Vec<Stretch> = Vec::new();
    for Stretch { rows, folded } in all {
        let folded = folded && rows.len() >= FOLDED;
        match joined.last_mut() {
            Some(last) if !last.folded && !folded => last.rows.end = rows.end,
            _ => joined.push(Stretch { rows, folded }),
        }
    }
    joined
}

fn paragraph(class: &str, text: &str) -> String {
    let class = if class.is_empty() { String::new() } else { format!(" class=\"{class}\"") };
    format!("<p{class}>{}</p>\n", escaped(text))
}

fn cells(tag: &str, cells: &[String]) -> String {
    let cells = cells.iter().map(|cell| format!("<{tag}>{}</{tag}>", escaped(cell)));
    format!("<tr>{}</tr>\n", cells.collect::<String>())
}

fn table(head: &[&str], rows: &str) -> String {
    let head: Vec<String> = head.iter().map(|one| one.to_string()).collect();
    format!("<div class=\"scroll\"><table>\n{}{rows}</table></div>\n", cells("th", &head))
}

impl Page<'_> {
    fn html(&self) -> String {
        let words = &self.words;
        let (kind, head) = match self.finding {
            Finding::Robust { .. } => ("Robust".to_string(), "Robust".to_string()),
            Finding::Unsolvable(nearest) => {
                let who = words.member(nearest.member);
                (
                    "Unsolvable".to_string(),
                    format!("Unsolvable: <b>{} has no plan</b>", escaped(&who)),
                )
            }
            Finding::Conflict(conflict) => {
                let kind = words.kind(conflict);
                (kind.clone(), format!("Not robust: <b>{kind}</b>"))
            }
        };
        let front =
            if self.title.is_empty() { String::new() } else { format!("{} · ", self.title) };
        let first = match self.finding {
            Finding::Conflict(_) => format!(" · {FIRST_CONFLICT}"),
            _ => String::new(),
        };
        let body = match self.finding {
            Finding::Robust { configurations, waits } => self.robust(*configurations, waits),
            Finding::Unsolvable(nearest) => self.unsolvable(nearest),
            Finding::Conflict(conflict) => self.conflict(conflict),
        };
        let title = if self.title.is_empty() { "a law" } else { self.title };
        format!(
            "<!doctype html>\n<html lang=\"en\">\n<head>\n<meta charset=\"utf-8\">\n\
             <meta http-equiv=\"Content-Security-Policy\" content=\"default-src 'none'; \
             style-src 'unsafe-inline'\">\n\
             <meta name=\"viewport\" content=\"width=device-width,initial-scale=1\">\n\
             <title>{}: {}</title>\n<style>\n{STYLE}</style>\n</head>\n<body>\n<main>\n\
             <h1>{head}</h1>\n{}{body}{}</main>\n\
             <footer><p>lawcheck {}, ./lawcheck --explain</p></footer>\n</body>\n</html>\n",
            escaped(title),
            escaped(&kind),
            paragraph("sub", &format!("{front}{}{first}", words.size())),
            if self.level.rows { String::new() } else { paragraph("", CUT) },
            env!("CARGO_PKG_VERSION"),
        )
    }

    fn robust(&self, configurations: u64, waits: &[(u16, Mask)]) -> String {
        let words = &self.words;
        let mut told = paragraph("", &words.robust(configurations));
        told.push_str("<h2>Actions that can wait</h2>\n");
        if waits.is_empty() {
            told.push_str(&paragraph("", "No action ever waits."));
            return told;
        }
        let row = |&(action, mask): &(u16, Mask)| {
            let step = words.names.step(words.law, action);
            cells("td", &[action.to_string(), step, self.plain(mask)])
        };
        let rows: String = waits.iter().map(row).collect();
        told.push_str(&table(&["action", "name", "it can wait for"], &rows));
        told
    }

    fn unsolvable(&self, nearest: &Nearest) -> String {
        let words = &self.words;
        let mut told = self.why(&words.nearest(nearest));
        told.push_str(&self.lanes(&nearest.steps));
        if !nearest.steps.is_empty() {
            told.push_str(&self.as_table(&nearest.steps, "step", "its own copy gains"));
        }
        told.push_str(&paragraph("checked", &words.nearest_checked(nearest)));
        told
    }

    fn conflict(&self, conflict: &Conflict) -> String {
        let words = &self.words;
        let mut told = self.why(&words.fault(conflict));
        told.push_str(&self.at_first());
        told.push_str(&self.lanes(&conflict.picks));
        told.push_str("<h2>Steps left</h2>\n<ul>\n");
        for (member, steps) in conflict.left.iter().enumerate() {
            let shown = steps.iter().take(self.level.left).map(|&step| words.names.action(step));
            let mut names: Vec<String> = shown.collect();
            let more = steps.len() - names.len();
            if more > 0 {
                names.push(format!("and {more} more"));
            }
            let names = if names.is_empty() { "none".to_string() } else { names.join("; ") };
            let who = escaped(&words.member(member));
            told.push_str(&format!("<li><b>{who}</b>: {}</li>\n", escaped(&names)));
        }
        told.push_str("</ul>\n<h2>Would more waiting mend it?</h2>\n");
        told.push_str(&paragraph("", &words.waited(&conflict.waited)));
        told.push_str(&self.as_table(&conflict.picks, "pick", "shared copy gains"));
        told.push_str(&paragraph("checked", &words.checked(conflict)));
        told
    }

    /// What went wrong, in words.
    fn why(&self, sentences: &[String]) -> String {
        let told: String = sentences.iter().map(|one| paragraph("", one)).collect();
        format!("<div class=\"why\" id=\"fault\">\n{told}</div>\n")
    }

    /// Names of facts with commas between them.
    fn plain(&self, mask: Mask) -> String {
        let names: Vec<String> = facts(mask).map(|fact| self.words.names.fact(fact)).collect();
        names.join(", ")
    }

    /// The facts that hold at first; many of them are folded.
    fn at_first(&self) -> String {
        let initial = self.words.law.initial();
        let count = initial.count_ones() as usize;
        if count > LISTED {
            return format!(
                "<details><summary>{} hold at first</summary>{}</details>\n",
                many(count, "fact"),
                paragraph("", &self.plain(initial))
            );
        }
        let names = if count == 0 { "nothing".to_string() } else { self.plain(initial) };
        paragraph("", &format!("Holds at first: {names}"))
    }

    /// The swim lanes, with folded stretches.
    fn lanes(&self, steps: &[Done]) -> String {
        let Words { law, names, .. } = self.words;
        let Some(chart) = Chart::new(law, names, self.finding) else { return String::new() };
        let none = Names::none();
        let bare = Chart { names: if self.level.folds { names } else { &none }, ..chart.clone() };
        let mut told = String::from("<section aria-label=\"Swim lanes\">\n");
        let key: Vec<usize> = chart.took.iter().map(|(pick, _)| *pick).collect();
        let mut parts = stretches(steps.len(), &key);
        if parts.is_empty() {
            parts.push(Stretch { rows: 0..0, folded: false });
        }
        // What lanes without room for names show: who has which, and the signs at the end.
        let alone = !self.level.both && parts.iter().any(|part| part.folded);
        let class = if chart.signed(false) || alone { "key" } else { "key phone" };
        let lane =
            |&lane: &usize| format!("<li><b>{lane}</b> {}</li>", escaped(&names.member(lane)));
        let numbered = chart.lanes.iter().filter(|_| chart.numbered(true));
        let key: String = numbered.map(lane).collect();
        told.push_str(&format!(
            "<ul class=\"{class}\" aria-label=\"Lanes\">{key}<li>{}</li></ul>\n",
            chart.signs()
        ));
        let open = Detail { changes: self.level.changes, stays: true, chips: true };
        let changes = if self.level.folds { self.level.changes } else { 0 };
        let shut = Detail { changes, stays: false, chips: false };
        let mut head = true;
        for Stretch { rows, folded } in &parts {
            let ends = rows.end == steps.len();
            let mut svgs = String::new();
            let mut start = rows.start;
            loop {
                let rest = rows.end - start;
                let drawn = if *folded { DRAWN_FOLDED } else { DRAWN };
                let end = match ends {
                    true if rest <= DRAWN_LAST => rows.end,
                    true => start + drawn.min(rest - DRAWN_LAST),
                    false => start + drawn.min(rest),
                };
                let part = Part {
                    rows: start..end,
                    head: head || *folded && start == rows.start,
                    end: ends && end == rows.end,
                };
                let (chart, detail) = if *folded { (&bare, shut) } else { (&chart, open) };
                if !folded || self.level.both {
                    svgs.push_str(&chart.part(&part, false, detail));
                }
                svgs.push_str(&chart.part(&part, true, detail));
                svgs.push('\n');
                head = false;
                start = end;
                if start == rows.end {
                    break;
                }
            }
            if !folded {
                told.push_str(&svgs);
                continue;
            }
            head = true;
            let class = if self.level.both { "" } else { " alone" };
            told.push_str(&format!(
                "<details class=\"fold{class}\"><summary>{}</summary>\n{svgs}</details>\n",
                escaped(&self.summary(steps, rows))
            ));
        }
        told.push_str("</section>\n");
        told
    }

    /// What a folded stretch does, in a line.
    fn summary(&self, steps: &[Done], rows: &Range<usize>) -> String {
        let names = self.words.names;
        let stretch = &steps[rows.clone()];
        let by = |member: usize| {
            let count = stretch.iter().filter(|done| done.member == member).count();
            (count > 0).then(|| format!("{} of {}", many(count, "step"), names.member(member)))
        };
        let by: Vec<String> = (0..self.words.law.members).filter_map(by).collect();
        let (before, after) = (stretch[0].before, stretch[stretch.len() - 1].after);
        let side = |sign: &str, mask: Mask| {
            let shown: Vec<String> =
                facts(mask).take(4).map(|fact| format!("{sign} {}", names.fact(fact))).collect();
            let more = mask.count_ones() as usize - shown.len();
            let more = (more > 0).then(|| format!("{sign} {more} more"));
            shown.into_iter().chain(more).collect::<Vec<_>>()
        };
        let mut changes = side("+", after & !before);
        changes.extend(side("−", before & !after));
        let changes =
            if changes.is_empty() { "nothing changed".to_string() } else { changes.join(", ") };
        format!("Picks {} to {}: {}; together {changes}", rows.start + 1, rows.end, by.join(", "))
    }

    /// The steps as a table: what one is called, and what it changes.
    fn as_table(&self, steps: &[Done], one: &str, gains: &str) -> String {
        let names = self.words.names;
        let whole = Stretch { rows: 0..steps.len(), folded: false };
        let parts = if self.level.rows { vec![whole] } else { stretches(steps.len(), &[]) };
        let mut rows = String::new();
        for Stretch { rows: range, folded } in parts {
            if folded {
                let told = escaped(&self.summary(steps, &range));
                rows.push_str(&format!("<tr><td></td><td colspan=\"4\">{told}</td></tr>\n"));
                continue;
            }
            for row in range {
                let done = &steps[row];
                let row = [
                    (row + 1).to_string(),
                    names.member(done.member),
                    names.action(done.action),
                    self.signed("+", done.gained()),
                    self.signed("−", done.lost()),
                ];
                rows.push_str(&cells("td", &row));
            }
        }
        let head = [one, "member", "action", gains, "loses"];
        let open = if steps.len() <= WHOLE { " open" } else { "" };
        format!(
            "<details{open}><summary>The same as a table</summary>\n{}</details>\n",
            table(&head, &rows)
        )
    }

    /// The facts of a change, as many as the level shows.
    fn signed(&self, sign: &str, mask: Mask) -> String {
        let most = self.level.changes;
        let shown =
            facts(mask).take(most).map(|fact| format!("{sign} {}", self.words.names.fact(fact)));
        let mut told: Vec<String> = shown.collect();
        let more = mask.count_ones() as usize - told.len();
        if more > 0 {
            told.push(format!("and {more} more"));
        }
        told.join(", ")
    }
}
