//! Swim lanes as SVG: members across, picks down. A chart is drawn in parts, one below the other,
//! so that stretches can be folded and paper can be turned between them; and for two widths, that
//! of a screen and that of a phone.

use crate::finding::{Conflict, Done, Fault, Finding, Nearest, Taken};
use crate::law::Law;
use crate::measure::{fit, lines, width};
use crate::names::Names;
use crate::words::many;
use lawcheck::{facts, Mask};
use std::fmt::Write;
use std::ops::Range;

/// The sizes of the fonts, as the style has them.
const STEP: f64 = 14.0;
const SMALL: f64 = 12.5;
/// The height of a line of steps, of small text, and of a chip with the gap below it.
const STEP_LINE: f64 = 17.0;
const SMALL_LINE: f64 = 16.0;
const CHIP: f64 = 20.0;
const CHIP_LINE: f64 = 25.0;
/// The most lines of a step's name in its box.
const BOX_LINES: usize = 3;
/// The most of a member's steps left that are drawn, and the most lacking facts that are told in
/// the chart; all of them stand below it.
const LATER: usize = 4;
const LACKING: usize = 8;
/// The most lines from what is lacking to who took it away, and the height that each takes.
const BLAMED: usize = 8;
const BLAME_LINE: f64 = 5.0;

/// How much of each pick is drawn.
#[derive(Clone, Copy)]
pub struct Detail {
    /// The most changed facts of a pick; 0 leaves the changes out.
    pub changes: usize,
    /// The facts that stay are told too.
    pub stays: bool,
    /// Chips around the changes.
    pub chips: bool,
}

/// What is drawn.
#[derive(Clone)]
pub struct Chart<'a> {
    pub law: &'a Law,
    pub names: &'a Names,
    /// The members that have a lane.
    pub lanes: Vec<usize>,
    pub steps: &'a [Done],
    /// What the column beside the lanes shows.
    pub copy: &'a str,
    pub end: End<'a>,
    /// The picks that took a lacking fact away, with these facts.
    pub took: Vec<(usize, Mask)>,
}

/// How the chart ends.
#[derive(Clone, Copy)]
pub enum End<'a> {
    Conflict(&'a Conflict),
    Nearest(&'a Nearest),
}

/// A part of a chart.
#[derive(Clone)]
pub struct Part {
    pub rows: Range<usize>,
    /// The lanes' heads stand above it.
    pub head: bool,
    /// The end stands below it.
    pub end: bool,
}

/// Where things stand across.
struct Frame {
    width: f64,
    /// The right edge of the picks' numbers.
    number: f64,
    lanes: f64,
    pitch: f64,
    /// Half of the gap between two lanes.
    gap: f64,
    /// The column beside the lanes.
    side: f64,
    /// Steps' names stand in the lanes; otherwise in the column.
    inside: bool,
}

impl Frame {
    fn new(count: usize, narrow: bool) -> Frame {
        let lanes = count as f64;
        if narrow {
            let pitch = (150.0 / lanes).min(32.0);
            let side = 48.0 + lanes * pitch + 8.0;
            let (number, gap) = (33.0, 1.5);
            return Frame { width: 380.0, number, lanes: 48.0, pitch, gap, side, inside: false };
        }
        let inside = count <= 4;
        let all = if inside { [290.0, 540.0, 570.0, 600.0][count - 1] } else { 450.0 };
        let side = 70.0 + all + 18.0;
        let gap = if inside { 6.0 } else { 2.0 };
        let pitch = all / lanes;
        Frame { width: 1000.0, number: 42.0, lanes: 70.0, pitch, gap, side, inside }
    }

    fn left(&self, lane: usize) -> f64 {
        self.lanes + self.pitch * lane as f64 + self.gap
    }

    fn wide(&self) -> f64 {
        self.pitch - 2.0 * self.gap
    }

    fn middle(&self, lane: usize) -> f64 {
        self.left(lane) + self.wide() / 2.0
    }

    /// The width of the column beside the lanes.
    fn beside(&self) -> f64 {
        self.width - self.side - 6.0
    }

    /// The left edge and the width of a step's box.
    fn boxed(&self, lane: usize) -> (f64, f64) {
        let margin = if self.inside { 8.0 } else { 2.0 };
        (self.left(lane) + margin, self.wide() - 2.0 * margin)
    }

    /// The x of the arrow of time.
    fn time(&self) -> f64 {
        self.number + 8.0
    }
}

/// A number in a drawing.
fn at(number: f64) -> String {
    let told = format!("{number:.1}");
    told.strip_suffix(".0").unwrap_or(&told).to_string()
}

/// A text in a page.
pub fn escaped(text: &str) -> String {
    let mut told = String::with_capacity(text.len());
    for one in text.chars() {
        match one {
            '&' => told.push_str("&amp;"),
            '<' => told.push_str("&lt;"),
            '>' => told.push_str("&gt;"),
            '"' => told.push_str("&quot;"),
            '\'' => told.push_str("&#39;"),
            _ => told.push(one),
        }
    }
    told
}

/// A change of the copy: its class and what is told.
type Change = (&'static str, String);

struct Drawing {
    svg: String,
}

impl Drawing {
    fn text(&mut self, class: &str, x: f64, y: f64, text: &str) {
        let (x, y, text) = (at(x), at(y), escaped(text));
        let _ = write!(self.svg, "<text class=\"{class}\" x=\"{x}\" y=\"{y}\">{text}</text>");
    }

    fn rect(&mut self, class: &str, (x, y): (f64, f64), (wide, high): (f64, f64), round: f64) {
        let [x, y, wide, high, round] = [x, y, wide, high, round].map(at);
        let _ = write!(
            self.svg,
            "<rect class=\"{class}\" x=\"{x}\" y=\"{y}\" width=\"{wide}\" height=\"{high}\" \
             rx=\"{round}\"/>"
        );
    }

    fn path(&mut self, class: &str, path: &str) {
        let _ = write!(self.svg, "<path class=\"{class}\" d=\"{path}\"/>");
    }

    fn line(&mut self, class: &str, (x, y): (f64, f64), (to_x, to_y): (f64, f64)) {
        let [x, y, to_x, to_y] = [x, y, to_x, to_y].map(at);
        self.path(class, &format!("M{x} {y}L{to_x} {to_y}"));
    }

    /// Lines of text one below the other; the y of the next.
    fn block(&mut self, class: &str, x: f64, y: f64, pitch: f64, lines: &[String]) -> f64 {
        for (place, line) in lines.iter().enumerate() {
            self.text(class, x, y + pitch * place as f64, line);
        }
        y + pitch * lines.len() as f64
    }
}

impl<'a> Chart<'a> {
    /// The chart of a finding that has one.
    pub fn new(law: &'a Law, names: &'a Names, finding: &'a Finding) -> Option<Chart<'a>> {
        match finding {
            Finding::Robust { .. } => None,
            Finding::Unsolvable(nearest) => Some(Chart {
                law,
                names,
                lanes: vec![nearest.member],
                steps: &nearest.steps,
                copy: "its own copy",
                end: End::Nearest(nearest),
                took: Vec::new(),
            }),
            Finding::Conflict(conflict) => {
                let mut took: Vec<(usize, Mask)> = Vec::new();
                for Taken { fact, pick, .. } in conflict.lacking() {
                    match took.iter_mut().find(|(other, _)| *other == pick) {
                        Some((_, mask)) => *mask |= 1 << fact,
                        None => took.push((pick, 1 << fact)),
                    }
                }
                Some(Chart {
                    law,
                    names,
                    lanes: (0..law.members).collect(),
                    steps: &conflict.picks,
                    copy: "shared copy",
                    end: End::Conflict(conflict),
                    took,
                })
            }
        }
    }

    /// Whether the lanes' heads have no room for the names, and show numbers.
    pub fn numbered(&self, narrow: bool) -> bool {
        let frame = Frame::new(self.lanes.len(), narrow);
        !frame.inside
            && self.lanes.iter().any(|&lane| width(&self.names.member(lane), STEP) > frame.wide())
    }

    /// Whether steps' names have no room in the lanes, and signs stand there at the end.
    pub fn signed(&self, narrow: bool) -> bool {
        !Frame::new(self.lanes.len(), narrow).inside
    }

    /// What these signs say.
    pub fn signs(&self) -> &'static str {
        match &self.end {
            End::Nearest(_) => "− goal not reached",
            End::Conflict(conflict) => match conflict.fault {
                Fault::Collision { .. } => {
                    "✕ collides · ✓ plan done, goal holds · − plan done, goal undone"
                }
                Fault::Deadlock(_) => {
                    "••• waits · ✓ plan done, goal holds · − plan done, goal undone"
                }
                Fault::Missed(_) => "✓ goal holds · − goal undone",
            },
        }
    }

    /// A part of the chart, for a phone if it is narrow.
    pub fn part(&self, part: &Part, narrow: bool, detail: Detail) -> String {
        let frame = Frame::new(self.lanes.len(), narrow);
        let mut drawing = Drawing { svg: String::new() };
        let top = if part.head { self.head(&mut drawing, &frame, narrow) } else { 0.0 };
        let mut y = top;
        let mut boxes: Vec<(usize, f64)> = Vec::new();
        let mut rows = Drawing { svg: String::new() };
        for row in part.rows.clone() {
            let high = self.row(&mut rows, &frame, row, y, detail);
            boxes.push((row, y + high / 2.0));
            y += high;
        }
        let mut fault = None;
        if part.end {
            let end = self.end(&mut rows, &frame, y);
            y = end.below;
            fault = Some(end);
        }
        self.blame(&mut rows, &frame, (top, y), &boxes, fault.as_ref());
        for lane in 0..self.lanes.len() {
            drawing.rect("lane", (frame.left(lane), top), (frame.wide(), y - top), 0.0);
        }
        drawing.svg.push_str(&rows.svg);
        // The arrow of time goes down to the end.
        let (time, to) = (frame.time(), fault.as_ref().map_or(y, |fault| fault.middle));
        drawing.line("time", (time, top), (time, to));
        if part.end {
            let [x, left, right] = [time, time - 4.0, time + 4.0].map(at);
            let [tip, back] = [to + 2.0, to - 6.0].map(at);
            drawing.path("arrow", &format!("M{left} {back}L{x} {tip}L{right} {back}Z"));
        }
        let label = match (part.rows.is_empty(), part.end) {
            (true, _) => "Swim lanes: the end".to_string(),
            (_, end) => {
                let more = if end { " and the end" } else { "" };
                let Range { start, end } = part.rows;
                format!("Swim lanes: picks {} to {end}{more}", start + 1)
            }
        };
        let (wide, high) = (at(frame.width), at(y.max(1.0)));
        let class = if narrow { "narrow" } else { "wide" };
        format!(
            "<svg class=\"lanes {class}\" viewBox=\"0 0 {wide} {high}\" role=\"img\" \
             aria-label=\"{label}\">{}</svg>",
            drawing.svg
        )
    }

    /// The heads of the lanes; their height.
    fn head(&self, drawing: &mut Drawing, frame: &Frame, narrow: bool) -> f64 {
        let numbers = self.numbered(narrow);
        let heads: Vec<Vec<String>> = self
            .lanes
            .iter()
            .map(|&member| {
                let name = self.names.member(member);
                if numbers {
                    vec![member.to_string()]
                } else {
                    lines(&name, STEP, frame.wide(), 2)
                }
            })
            .collect();
        let most = heads.iter().map(Vec::len).max().unwrap_or(1);
        for (lane, head) in heads.iter().enumerate() {
            let y = 18.0 + STEP_LINE * (most - head.len()) as f64;
            drawing.block("who mid", frame.middle(lane), y, STEP_LINE, head);
        }
        let y = 18.0 + STEP_LINE * (most - 1) as f64;
        drawing.text("small end", frame.time() + 2.0, y, "time");
        drawing.text("who", frame.side, y, self.copy);
        y + 12.0
    }

    /// What a pick changes, as much as is drawn.
    fn changes(&self, row: usize, detail: Detail) -> Vec<Change> {
        let done = &self.steps[row];
        let key = self.took.iter().find(|(pick, _)| *pick == row).map_or(0, |(_, mask)| *mask);
        let told = |class: &'static str, sign: &str, mask: Mask| -> Vec<Change> {
            facts(mask).map(|fact| (class, format!("{sign} {}", self.names.fact(fact)))).collect()
        };
        // A fact that is lacking in the end comes first, so that it is never left out.
        let mut all = told("minus key", "−", done.lost() & key);
        all.extend(told("plus", "+", done.gained()));
        all.extend(told("minus", "−", done.lost() & !key));
        let more = all.len().saturating_sub(detail.changes);
        if more > 0 {
            all.truncate(detail.changes);
            all.push(("stays", format!("and {more} more")));
        }
        if all.is_empty() {
            all.push(("stays", "no change".to_string()));
        }
        all
    }

    /// What stands beside a pick.
    fn column(&self, frame: &Frame, row: usize, detail: Detail) -> Column {
        let done = &self.steps[row];
        let label = if frame.inside {
            Vec::new()
        } else {
            lines(&self.names.step(self.law, done.action), STEP, frame.beside(), BOX_LINES)
        };
        let changes = if detail.changes > 0 { self.changes(row, detail) } else { Vec::new() };
        Column {
            label,
            changes: self.placed(frame, &changes, detail),
            pitch: if detail.chips { CHIP_LINE } else { SMALL_LINE },
            stays: if detail.stays { self.stays(frame, done) } else { Vec::new() },
        }
    }

    /// A pick's row at y; its height.
    fn row(&self, drawing: &mut Drawing, frame: &Frame, row: usize, y: f64, detail: Detail) -> f64 {
        let done = &self.steps[row];
        let lane = self.lanes.iter().position(|&member| member == done.member).unwrap_or(0);
        let (left, wide) = frame.boxed(lane);
        let label = if frame.inside {
            lines(&self.names.action(done.action), STEP, wide - 12.0, BOX_LINES)
        } else {
            Vec::new()
        };
        let column = self.column(frame, row, detail);
        let box_high = if frame.inside { 22.0 + STEP_LINE * label.len() as f64 } else { 20.0 };
        let high = column.high().max(box_high) + 16.0;
        let middle = y + high / 2.0;
        if detail.chips {
            let rule = y + high - 0.5;
            drawing.line("rule", (frame.number - 14.0, rule), (frame.width, rule));
        }
        drawing.text("num end", frame.number, middle + 4.5, &(row + 1).to_string());
        let took = self.took.iter().any(|(pick, _)| *pick == row);
        let class = if took { "step took" } else { "step" };
        drawing.rect(class, (left, middle - box_high / 2.0), (wide, box_high), 7.0);
        if frame.inside {
            let first = middle + 5.0 - STEP_LINE * (label.len() - 1) as f64 / 2.0;
            drawing.block("mid", frame.middle(lane), first, STEP_LINE, &label);
        } else if wide >= 18.0 {
            drawing.text("mid small", frame.middle(lane), middle + 4.5, &done.action.to_string());
        }
        column.draw(drawing, frame.side, middle - column.high() / 2.0, detail);
        high
    }

    /// Where the changes stand in the column: x, line, and the change as far as it fits.
    fn placed(
        &self,
        frame: &Frame,
        changes: &[Change],
        detail: Detail,
    ) -> Vec<(f64, usize, Change)> {
        let (edge, gap) = if detail.chips { (14.0, 5.0) } else { (0.0, 12.0) };
        let (mut x, mut line) = (0.0, 0);
        let mut placed = Vec::new();
        for (class, told) in changes {
            let told = fit(told, SMALL, frame.beside() - edge);
            let wide = width(&told, SMALL) + edge;
            if x > 0.0 && x + wide > frame.beside() {
                (x, line) = (0.0, line + 1);
            }
            placed.push((x, line, (*class, told)));
            x += wide + gap;
        }
        placed
    }

    /// The facts that a step leaves as they are, in two lines at most.
    fn stays(&self, frame: &Frame, done: &Done) -> Vec<String> {
        let stays: Vec<String> =
            facts(done.before & done.after).map(|fact| self.names.fact(fact)).collect();
        if stays.is_empty() {
            return Vec::new();
        }
        // No more than two lines' width of names.
        let mut room = 2.0 * frame.beside();
        let fitting = stays.iter().take_while(|name| {
            room -= width(name, SMALL);
            room > 0.0
        });
        for shown in (1..=fitting.count()).rev() {
            let more = stays.len() - shown;
            let mut told = format!("still {}", stays[..shown].join(", "));
            if more > 0 {
                told.push_str(&format!(" and {more} more"));
            }
            let told = lines(&told, SMALL, frame.beside(), 3);
            if told.len() <= 2 {
                return told;
            }
        }
        vec![format!("still {}", many(stays.len(), "fact"))]
    }

    /// The end, drawn at y.
    fn end(&self, drawing: &mut Drawing, frame: &Frame, y: f64) -> Drawn {
        let marks: Vec<Mark> = (0..self.lanes.len()).map(|lane| self.mark(lane)).collect();
        let inner = frame.boxed(0).1 - 12.0;
        let told: Vec<Vec<(&str, String)>> = marks
            .iter()
            .map(|mark| if frame.inside { mark.lines(self.names, inner) } else { Vec::new() })
            .collect();
        let (head, said) = self.said(frame.inside);
        let head = lines(&head, STEP, frame.beside() - 8.0, 3);
        let said: Vec<String> =
            said.iter().flat_map(|one| lines(one, SMALL, frame.beside() - 8.0, 4)).collect();
        let side_high = STEP_LINE * head.len() as f64 + SMALL_LINE * said.len() as f64 + 8.0;
        let most = told.iter().map(Vec::len).max().unwrap_or(0);
        let box_high = if frame.inside { 20.0 + SMALL_LINE * most as f64 } else { 24.0 };
        let high = side_high.max(box_high) + 20.0;
        let top = y + 8.0 + BLAME_LINE * self.blamed().len() as f64;
        let middle = top + high / 2.0;
        let left = (frame.number - 34.0).max(0.0);
        drawing.rect("band", (left, top), (frame.width - left, high), 8.0);
        cross(drawing, "fault", frame.number - 8.0, middle, 5.0);
        for (lane, mark) in marks.iter().enumerate() {
            let (left, wide) = frame.boxed(lane);
            let Some((class, round)) = mark.shape() else { continue };
            drawing.rect(class, (left, middle - box_high / 2.0), (wide, box_high), round);
            if frame.inside {
                let lines = &told[lane];
                let mut down = middle + 4.5 - SMALL_LINE * (lines.len() as f64 - 1.0) / 2.0;
                for (class, line) in lines {
                    drawing.text(class, frame.middle(lane), down, line);
                    down += SMALL_LINE;
                }
            } else {
                mark.sign(drawing, frame.middle(lane), middle);
            }
        }
        let down = top + (high - side_high) / 2.0 + 16.0;
        let down = drawing.block("because", frame.side, down, STEP_LINE, &head);
        drawing.block("small", frame.side, down, SMALL_LINE, &said);
        let below = self.later(drawing, frame, top + high + 10.0);
        Drawn { top, boxes: middle - box_high / 2.0, middle, below }
    }

    /// What a lane shows at the end.
    fn mark(&self, lane: usize) -> Mark<'a> {
        match self.end {
            End::Nearest(_) => Mark::Short,
            End::Conflict(conflict) => {
                let holds = self.law.goal(lane) & !conflict.shared == 0;
                match &conflict.fault {
                    Fault::Collision { member, action, missing } if *member == lane => {
                        Mark::Collides(*action, missing)
                    }
                    Fault::Deadlock(waiting) => match waiting.iter().find(|one| one.0 == lane) {
                        Some((_, action, lacks)) => Mark::Waits(*action, lacks),
                        None => Mark::Done(holds),
                    },
                    _ if conflict.left[lane].is_empty() => Mark::Done(holds),
                    _ => Mark::Nothing,
                }
            }
        }
    }

    /// The end in words, for the column: its head, and lines. Where the lanes have no room for
    /// words the lines say who lacks what.
    fn said(&self, inside: bool) -> (String, Vec<String>) {
        let (head, mut told) = match self.end {
            End::Nearest(nearest) => {
                let one = |fact| format!("“{}” is lacking", self.names.fact(fact));
                (
                    "no step leads on to the goal".to_string(),
                    facts(nearest.lacks).map(one).collect(),
                )
            }
            End::Conflict(conflict) => {
                let (head, verb) = match &conflict.fault {
                    Fault::Collision { member, action, .. } => {
                        let who = self.names.member(*member);
                        (format!("collision: {who} at “{}”", self.names.action(*action)), "lacks")
                    }
                    Fault::Deadlock(_) => ("deadlock: nobody can go on".to_string(), "waits for"),
                    Fault::Missed(_) => {
                        ("goal missed: all plans are done".to_string(), "is without")
                    }
                };
                let taken = |taken: &Taken| {
                    let Taken { fact, pick, .. } = taken;
                    format!("“{}”: taken away by pick {}", self.names.fact(*fact), pick + 1)
                };
                let told: Vec<String> = if inside {
                    conflict.lacking().iter().map(taken).collect()
                } else {
                    let who = |(member, lacks): (usize, &'a [Taken])| {
                        let who = self.names.member(member);
                        lacks.iter().map(move |one| format!("{who} {verb} {}", taken(one)))
                    };
                    conflict.lacks().flat_map(who).collect()
                };
                (head, told)
            }
        };
        let more = told.len().saturating_sub(LACKING);
        if more > 0 {
            told.truncate(LACKING);
            told.push(format!("and {more} more"));
        }
        (head, told)
    }

    /// The members that lack something, each with a pick that took it away.
    fn blamed(&self) -> Vec<(usize, usize)> {
        let End::Conflict(conflict) = self.end else { return Vec::new() };
        let pairs = conflict
            .lacks()
            .flat_map(|(member, lacks)| lacks.iter().map(move |taken| (member, taken.pick)));
        let mut pairs: Vec<(usize, usize)> = pairs.collect();
        pairs.sort_unstable();
        pairs.dedup();
        pairs.truncate(BLAMED);
        pairs
    }

    /// Dotted lines from the picks that took something away down to the boxes that lack it: beside
    /// the pick's lane, through the parts below, then across above the end. This part goes from top
    /// to below, with these rows and perhaps the end.
    fn blame(
        &self,
        drawing: &mut Drawing,
        frame: &Frame,
        (top, below): (f64, f64),
        rows: &[(usize, f64)],
        end: Option<&Drawn>,
    ) {
        let blamed = self.blamed();
        for (place, &(member, pick)) in blamed.iter().enumerate() {
            let here = self.steps[pick].member;
            let (left, wide) = frame.boxed(here);
            // On the side of the other lane; lines of one lane stand apart.
            let apart = 1.5 + 3.0 * (place % 2) as f64;
            let (from, down) = if member > here {
                (left + wide, frame.left(here) + frame.wide() + apart)
            } else {
                (left, frame.left(here) - apart)
            };
            let [from, down] = [from, down].map(at);
            let begin = match rows.iter().find(|(row, _)| *row == pick) {
                Some((_, y)) => format!("M{from} {}H{down}", at(*y)),
                // The pick stands in a part above.
                None if rows.first().is_some_and(|(first, _)| pick < *first) => {
                    format!("M{down} {}", at(top))
                }
                None => continue,
            };
            let rest = match end {
                None => format!("V{}", at(below)),
                Some(end) => {
                    let across = end.top - 4.0 - BLAME_LINE * place as f64;
                    let shift = 6.0 * (place as f64 - (blamed.len() - 1) as f64 / 2.0);
                    let most = frame.wide() / 3.0;
                    let to = frame.middle(member) + shift.clamp(-most, most);
                    format!("V{}H{}V{}", at(across), at(to), at(end.boxes - 2.0))
                }
            };
            drawing.path("blame", &format!("{begin}{rest}"));
        }
    }

    /// The steps that are left, below the end; the height so far.
    fn later(&self, drawing: &mut Drawing, frame: &Frame, y: f64) -> f64 {
        let End::Conflict(conflict) = self.end else { return y };
        let mut most = y;
        for lane in 0..self.lanes.len() {
            // A step that collides or waits stands in the band already.
            let first = usize::from(!matches!(self.mark(lane), Mark::Nothing | Mark::Done(_)));
            let steps = conflict.left[lane].get(first..).unwrap_or(&[]);
            let (left, wide) = frame.boxed(lane);
            let margin = if frame.inside { 12.0 } else { 1.0 };
            let mut down = y;
            for &action in steps.iter().take(LATER) {
                drawing.rect("later", (left + margin, down), (wide - 2.0 * margin, 24.0), 6.0);
                let name = self.names.action(action);
                let name = if frame.inside {
                    fit(&name, SMALL, wide - 2.0 * margin - 8.0)
                } else {
                    action.to_string()
                };
                if wide >= 18.0 {
                    drawing.text("small soft mid", frame.middle(lane), down + 16.5, &name);
                }
                down += 30.0;
            }
            if steps.len() > LATER {
                let more = steps.len() - LATER;
                let more =
                    if frame.inside { format!("and {more} more") } else { format!("+{more}") };
                drawing.text("small soft mid", frame.middle(lane), down + 12.0, &more);
                down += 22.0;
            }
            most = most.max(down);
        }
        most + 6.0
    }
}

/// What stands beside a pick.
struct Column {
    /// The step, where its box has no room for the name.
    label: Vec<String>,
    /// The changes, each at its x and line.
    changes: Vec<(f64, usize, Change)>,
    /// The height of a line of changes.
    pitch: f64,
    /// What stays.
    stays: Vec<String>,
}

impl Column {
    /// The height of the changes.
    fn changes_high(&self) -> f64 {
        self.pitch * self.changes.last().map_or(0, |(_, line, _)| line + 1) as f64
    }

    fn high(&self) -> f64 {
        let text = STEP_LINE * self.label.len() as f64 + SMALL_LINE * self.stays.len() as f64;
        text + self.changes_high()
    }

    /// Draws it with this left and top.
    fn draw(&self, drawing: &mut Drawing, left: f64, top: f64, detail: Detail) {
        let below = drawing.block("", left, top + 13.0, STEP_LINE, &self.label) - 13.0;
        for (x, line, (class, told)) in &self.changes {
            let (x, y) = (left + x, below + self.pitch * *line as f64);
            if !detail.chips {
                drawing.text(&format!("small {class}"), x, y + 12.0, told);
                continue;
            }
            let wide = width(told, SMALL) + 14.0;
            let round = if class.starts_with("minus") { 3.0 } else { 10.0 };
            drawing.rect(&format!("chip {class}"), (x, y + 2.0), (wide, CHIP), round);
            drawing.text(&format!("small {class}"), x + 7.0, y + 16.5, told);
        }
        let below = below + self.changes_high();
        drawing.block("small soft", left, below + 12.0, SMALL_LINE, &self.stays);
    }
}

/// Where the end of a chart was drawn.
struct Drawn {
    /// The top of the band, and of the boxes in it.
    top: f64,
    boxes: f64,
    /// The middle of the band.
    middle: f64,
    /// Below everything.
    below: f64,
}

/// What a lane shows at the end.
enum Mark<'a> {
    Collides(u16, &'a [Taken]),
    Waits(u16, &'a [Taken]),
    /// The plan is done, and whether the goal holds.
    Done(bool),
    /// A plan that does not reach the goal.
    Short,
    Nothing,
}

impl Mark<'_> {
    /// The class of the box, and how round it is.
    fn shape(&self) -> Option<(&'static str, f64)> {
        match self {
            Mark::Collides(..) => Some(("hit", 3.0)),
            Mark::Waits(..) => Some(("wait", 7.0)),
            Mark::Done(true) => Some(("over", 14.0)),
            Mark::Done(false) | Mark::Short => Some(("over undone", 14.0)),
            Mark::Nothing => None,
        }
    }

    /// What the box says, in lines with their classes.
    fn lines(&self, names: &Names, most: f64) -> Vec<(&'static str, String)> {
        let step = |action: u16, word: &str, lacks: &[Taken]| {
            let name = lines(&names.action(action), STEP, most, BOX_LINES);
            let mut told: Vec<(&str, String)> = name.into_iter().map(|one| ("mid", one)).collect();
            let facts: Vec<String> = lacks.iter().map(|taken| names.fact(taken.fact)).collect();
            let lacks = lines(&format!("{word}: {}", facts.join(", ")), SMALL, most, 3);
            told.extend(lacks.into_iter().map(|one| ("small mid", one)));
            told
        };
        let small = |text: &str| {
            lines(text, SMALL, most, 2).into_iter().map(|one| ("small mid", one)).collect()
        };
        match self {
            Mark::Collides(action, lacks) => step(*action, "collides, lacks", lacks),
            Mark::Waits(action, lacks) => step(*action, "waits for", lacks),
            Mark::Done(true) => small("plan done, goal holds"),
            Mark::Done(false) => small("plan done, goal undone"),
            Mark::Short => small("goal not reached"),
            Mark::Nothing => Vec::new(),
        }
    }

    /// A sign for a box that has no room for words.
    fn sign(&self, drawing: &mut Drawing, x: f64, y: f64) {
        match self {
            Mark::Collides(..) => cross(drawing, "fault", x, y, 4.5),
            Mark::Waits(..) => {
                for dot in [-4.5, 0.0, 4.5] {
                    let (x, y) = (at(x + dot), at(y));
                    let _ = write!(
                        drawing.svg,
                        "<circle class=\"dot\" cx=\"{x}\" cy=\"{y}\" r=\"1.6\"/>"
                    );
                }
            }
            Mark::Done(true) => {
                let [left, mid, right] = [x - 4.5, x - 1.0, x + 4.5].map(at);
                let [high, low, level] = [y - 4.0, y + 4.0, y + 0.5].map(at);
                drawing.path("tick", &format!("M{left} {level}L{mid} {low}L{right} {high}"));
            }
            Mark::Done(false) | Mark::Short => {
                drawing.line("fault", (x - 4.5, y), (x + 4.5, y));
            }
            Mark::Nothing => {}
        }
    }
}

fn cross(drawing: &mut Drawing, class: &str, x: f64, y: f64, size: f64) {
    let [left, right, top, low] = [x - size, x + size, y - size, y + size].map(at);
    drawing.path(class, &format!("M{left} {top}L{right} {low}M{right} {top}L{left} {low}"));
}
