//! The test finds broken programs: the fast twin behind the verdict file, with one thing wrong in
//! each.

use program::file::{configurations_room, copies_room, judge, File, Judged, CONFIGURATIONS, LOCAL};
use program::reached::Reached;
use program::texts::{fixed, made, LONGEST};
use reference::fast::{copies, Fast, Task};
use reference::interface::{missing, out_length, Interface, MASK, ROW, ROWS};
use reference::paper::facts::Facts;
use reference::paper::verdict::Class;
use reference::wrong::changed::Teller;
use reference::wrong::masks::{self, Instead, Mask};
use reference::wrong::{self, Wrong};
use Broken::*;

/// What is wrong; a number says from which size on, or with how many members.
#[derive(Clone, Copy, Debug, PartialEq)]
enum Broken {
    // The text.
    LeadingZeroTaken,
    LineFeedTaken,
    LastLineEndAsked,
    BlankEndTaken,
    NumberTaken(u128),
    RecordsTaken,
    RecordsRefused,
    LongTextCut,
    EmptyTextMalformed,
    NulEndsTheText,
    FiveFieldsTaken,
    WordsExchanged,
    HighWordsLost,
    HighWordsAsLow,
    FactsTaken,
    // The answer.
    RefusalExchanged(u64, u64),
    CopiesFullRefused(usize),
    ConfigurationsFullRefused(usize),
    CopiesOverTaken(usize),
    CountOff(u64),
    UnsolvableOff(u64),
    // The file.
    ByteChanged,
    LineFeedAlone,
    LastLineEndLost,
    LineAfterTheEnd,
    PickLost(usize),
    PickOff(usize),
    PickAfterTheLast,
    ActionOff(u16),
    ActionLost(usize),
    PlanLost,
    PlansExchanged,
    MissedAsDeadlock,
    NumberOff(u64),
    // The lines of what is missing.
    MissingFalling,
    MissingFromOne,
    MissingWithout64,
    MissingLost(usize),
    MissingTwice,
    MissingOnOneLine,
    MissingAsMask,
    MissingLineFeedAlone,
    MissingFirst,
    MissingAfterThePlans,
    MissingLast,
}

const ALL: [Broken; 78] = [
    LeadingZeroTaken,
    LineFeedTaken,
    LastLineEndAsked,
    BlankEndTaken,
    NumberTaken(1 << 64),
    NumberTaken(99_999_999_999_999_999_999),
    RecordsTaken,
    RecordsRefused,
    LongTextCut,
    EmptyTextMalformed,
    NulEndsTheText,
    FiveFieldsTaken,
    WordsExchanged,
    HighWordsLost,
    HighWordsAsLow,
    FactsTaken,
    RefusalExchanged(1, 2),
    RefusalExchanged(2, 1),
    RefusalExchanged(3, 4),
    RefusalExchanged(4, 3),
    RefusalExchanged(5, 4),
    RefusalExchanged(6, 4),
    RefusalExchanged(9, 15),
    RefusalExchanged(15, 9),
    CopiesFullRefused(1),
    CopiesFullRefused(3),
    CopiesFullRefused(8),
    ConfigurationsFullRefused(1),
    ConfigurationsFullRefused(4),
    ConfigurationsFullRefused(8),
    CopiesOverTaken(1),
    CopiesOverTaken(2),
    CopiesOverTaken(5),
    CopiesOverTaken(7),
    CountOff(1),
    CountOff(64),
    CountOff(1024),
    CountOff(2048),
    UnsolvableOff(1),
    UnsolvableOff(7),
    ByteChanged,
    LineFeedAlone,
    LastLineEndLost,
    LineAfterTheEnd,
    PickLost(1),
    PickLost(256),
    PickLost(1023),
    PickOff(8),
    PickOff(64),
    PickAfterTheLast,
    ActionOff(0),
    ActionOff(16),
    ActionOff(64),
    ActionLost(8),
    ActionLost(256),
    ActionLost(1000),
    PlanLost,
    PlansExchanged,
    MissedAsDeadlock,
    NumberOff(1),
    NumberOff(16),
    NumberOff(256),
    MissingFalling,
    MissingFromOne,
    MissingWithout64,
    MissingLost(1),
    MissingLost(2),
    MissingLost(8),
    MissingLost(64),
    MissingLost(65),
    MissingLost(128),
    MissingTwice,
    MissingOnOneLine,
    MissingAsMask,
    MissingLineFeedAlone,
    MissingFirst,
    MissingAfterThePlans,
    MissingLast,
];

/// The file of the fast twin, or of one that chooses another conflict.
fn answer(by: &impl Interface, text: &[u8]) -> File {
    let mut words = [0; ROW * ROWS];
    let mut out = [0; out_length::VERDICT];
    match by.read(text, &mut words, &mut out) {
        0 => verdict(by, &words[..ROW * out[0] as usize]),
        refusal => File::short("refused", refusal),
    }
}

fn verdict(by: &impl Interface, task: &[u64]) -> File {
    let members = task[1] as usize;
    let (rows, most) = (members * copies_room(members), configurations_room(members));
    let (mut plans, mut ends, mut picks) = (vec![0; most + rows], vec![0; members], vec![0; most]);
    let mut out = [0; out_length::VERDICT];
    let (mut local, mut configurations) = ([0; LOCAL], [0; CONFIGURATIONS]);
    let (mut marks, mut trail) = (vec![0; rows], vec![0; 2 * most]);
    let refusal = by.verdict(
        task,
        &mut local,
        &mut marks,
        &mut configurations,
        &mut trail,
        &mut plans,
        &mut ends,
        &mut picks,
        &mut out,
    );
    let (kind, number, played) = match (refusal, out) {
        (0, [0, _, count, ..]) => ("robust", count, 0),
        (0, [1, member, ..]) => ("unsolvable", member, 0),
        (0, [2, _, done, ..]) => ("collision", done, done + 1),
        (0, [3, _, done, ..]) => ("deadlock", done, done),
        (0, [_, member, done, ..]) => ("missed", member, done),
        (refusal, _) => ("refused", refusal, 0),
    };
    let file = File::short(kind, number).with_missing(&Facts::of_words(&out[missing::VERDICT]));
    if ["collision", "deadlock", "missed"].contains(&kind) {
        picks.truncate(played as usize);
        return file.with_conflict(&plans, &ends, picks);
    }
    file
}

/// A text with other fields in its records, where each has so many.
fn fields(text: &str, count: usize, change: impl Fn(usize, &mut Vec<&str>)) -> Vec<u8> {
    let mut changed = String::new();
    for (number, record) in text.split_inclusive("\r\n").enumerate() {
        let plain = record.trim_end_matches("\r\n");
        let mut fields: Vec<&str> = plain.split(',').collect();
        if fields.len() != count {
            return text.as_bytes().to_vec();
        }
        change(number, &mut fields);
        changed += &(fields.join(",") + &record[plain.len()..]);
    }
    changed.into_bytes()
}

impl Broken {
    /// Its file for a text, of which the paper and the twin say this.
    fn file(self, text: &[u8], judged: &Judged, twin: &File) -> Vec<u8> {
        let misread = self.misread(text);
        let mut file = if misread == text { twin.clone() } else { answer(&Fast, &misread) };
        self.misjudge(judged, &mut file);
        let mut bytes = file.bytes();
        match self {
            ByteChanged => *bytes.last_mut().expect("two lines") ^= 1,
            LineFeedAlone => bytes.retain(|&byte| byte != b'\r'),
            LastLineEndLost => bytes.truncate(bytes.len() - 2),
            LineAfterTheEnd => bytes.extend(b"\r\n"),
            _ => {}
        }
        if file.missing.is_empty() {
            return bytes;
        }
        self.misplace(String::from_utf8(bytes).expect("lines of text"), &file).into_bytes()
    }

    /// Puts the lines of what is missing elsewhere, or in another form.
    fn misplace(self, text: String, file: &File) -> String {
        let missing: String =
            file.missing.iter().map(|fact| format!("missing,{fact}\r\n")).collect();
        let rest = text.replacen(&missing, "", 1);
        let before_picks = rest.find("pick,").expect("a collision has picks");
        match self {
            MissingOnOneLine => {
                let facts: Vec<String> = file.missing.iter().map(u64::to_string).collect();
                text.replacen(&missing, &format!("missing,{}\r\n", facts.join(",")), 1)
            }
            MissingAsMask => {
                let [low, high] = Facts::of_numbers(file.missing.iter().copied()).words();
                text.replacen(&missing, &format!("missing,{low}\r\nmissing,{high}\r\n"), 1)
            }
            MissingLineFeedAlone => text.replacen(&missing, &missing.replace('\r', ""), 1),
            MissingFirst => missing + &rest,
            MissingAfterThePlans => {
                rest[..before_picks].to_string() + &missing + &rest[before_picks..]
            }
            MissingLast => rest + &missing,
            _ => text,
        }
    }

    /// The text that it takes for this one.
    fn misread(self, text: &[u8]) -> Vec<u8> {
        let plain = String::from_utf8_lossy(text);
        let lines =
            |end: &str| plain.split(end).filter(|line| !line.is_empty()).collect::<Vec<_>>();
        match self {
            LeadingZeroTaken => plain.replace(",00", ",0").replace(",01", ",1").into_bytes(),
            LineFeedTaken => (lines("\n").iter().map(|line| line.trim_end_matches('\r')))
                .fold(String::new(), |text, line| text + line + "\r\n")
                .into_bytes(),
            LastLineEndAsked if !text.is_empty() && !text.ends_with(b"\r\n") => b"x".to_vec(),
            BlankEndTaken => plain.replace("\r\n\r\n", "\r\n").into_bytes(),
            NumberTaken(number) => plain.replace(&number.to_string(), "0").into_bytes(),
            RecordsTaken => {
                lines("\r\n").into_iter().take(265).collect::<Vec<_>>().join("\r\n").into_bytes()
            }
            RecordsRefused if lines("\r\n").len() == 265 => b"x".to_vec(),
            LongTextCut => text[..text.len().min(LONGEST as usize)].to_vec(),
            EmptyTextMalformed if text.is_empty() => b"x".to_vec(),
            NulEndsTheText => text.split(|&byte| byte == 0).next().unwrap_or(text).to_vec(),
            FiveFieldsTaken => fields(&plain, 5, |number, fields| {
                let places = if number == 0 { [0, 1, 2, 3, 8] } else { [0, 1, 3, 5, 7] };
                let mut wide = vec!["0"; ROW];
                for (place, field) in places.into_iter().zip(fields.iter()) {
                    wide[place] = field;
                }
                *fields = wide;
            }),
            WordsExchanged | HighWordsLost | HighWordsAsLow => {
                fields(&plain, ROW, |number, fields| {
                    let masks = if number == 0 { &mut fields[3..5] } else { &mut fields[1..] };
                    for mask in masks.chunks_mut(MASK) {
                        match self {
                            WordsExchanged => mask.swap(0, 1),
                            HighWordsAsLow if mask[0] == "0" => mask.swap(0, 1),
                            HighWordsAsLow => {}
                            _ => mask[1] = "0",
                        }
                    }
                })
            }
            FactsTaken => fields(&plain, ROW, |number, fields| {
                if number == 0 && fields[0] == "129" {
                    fields[0] = "128";
                }
            }),
            _ => text.to_vec(),
        }
    }

    /// Puts something wrong in the file.
    fn misjudge(self, judged: &Judged, file: &mut File) {
        let task = Task::check(&judged.task).ok();
        let members = task.as_ref().map_or(0, Task::members);
        let (kind, number) = (file.kind.clone(), file.number);
        let listed = match judged.answer {
            Ok(Class::Robust(listed) | Class::NotRobust(listed, ..)) => listed,
            _ => 0,
        };
        let found = |room| {
            let task = task.as_ref()?;
            (0..members)
                .map(|member| copies(task, member, room).map(|table| table.rows.len()))
                .max()?
        };
        match self {
            RefusalExchanged(one, other) if kind == "refused" && number == one => {
                file.number = other
            }
            CopiesFullRefused(n) if n == members && found(LOCAL) == Some(copies_room(n)) => {
                *file = File::short("refused", 9);
            }
            ConfigurationsFullRefused(n) if n == members && listed == configurations_room(n) => {
                *file = File::short("refused", 9);
            }
            CopiesOverTaken(n) if n == members && found(2 * LOCAL) == Some(copies_room(n) + 1) => {
                *file = File::short("robust", copies_room(n) as u64 + 1);
            }
            CountOff(least) if kind == "robust" && number >= least => file.number -= 1,
            UnsolvableOff(least) if kind == "unsolvable" && number >= least => file.number = 0,
            PickLost(least) if file.picks.len() >= least => drop(file.picks.remove(least - 1)),
            PickOff(place) if file.picks.len() > place => file.picks[place] ^= 1,
            PickAfterTheLast if !file.picks.is_empty() => file.picks.push(0),
            ActionOff(least) => {
                for action in file.plans.iter_mut().flatten().filter(|action| **action >= least) {
                    *action += 1;
                }
            }
            ActionLost(place) => {
                for plan in file.plans.iter_mut().filter(|plan| plan.len() > place) {
                    plan.remove(place);
                }
            }
            PlanLost if !file.plans.is_empty() => drop(file.plans.pop()),
            PlansExchanged if !file.plans.is_empty() => file.plans.rotate_left(1),
            MissedAsDeadlock if kind == "missed" => file.kind = "deadlock".into(),
            NumberOff(least) if !file.plans.is_empty() && number >= least => file.number -= 1,
            MissingFalling => file.missing.reverse(),
            MissingFromOne => file.missing.iter_mut().for_each(|fact| *fact += 1),
            MissingWithout64 => file.missing.iter_mut().for_each(|fact| *fact %= 64),
            MissingLost(place) if file.missing.len() >= place => {
                file.missing.remove(place - 1);
            }
            MissingTwice => file.missing.extend(file.missing.last().copied()),
            _ => {}
        }
    }
}

#[test]
fn the_twin_passes_and_every_broken_program_is_found() {
    let mut unnoticed = ALL.to_vec();
    let mut others = wrong::ALL.to_vec();
    // Those that differ in what they print.
    let mut masks = masks::of(Teller::Verdict);
    masks.retain(|mask| !matches!(mask.instead, Instead::OutOf(_) | Instead::LeftElsewhere));
    let mut reached = Reached::default();
    for number in 0..fixed() + 4000 {
        let text = made(7, number);
        let (judged, file) = (judge(&text), answer(&Fast, &text));
        judged.check(&file.bytes()).expect("the twin passes");
        reached.count(&text, &judged);
        unnoticed.retain(|broken| judged.check(&broken.file(&text, &judged, &file)).is_ok());
        if !file.plans.is_empty() {
            let same = |other: &Wrong| judged.check(&answer(other, &text).bytes()).is_ok();
            others.retain(same);
        }
        let same = |mask: &Mask| judged.check(&answer(&mask.twin(), &text).bytes()).is_ok();
        masks.retain(same);
    }
    assert_eq!(reached.missing(), Vec::<String>::new());
    assert_eq!(unnoticed, []);
    assert_eq!(masks, []);
    assert_eq!(others.iter().map(|other| other.name).collect::<Vec<_>>(), Vec::<&str>::new());
}
