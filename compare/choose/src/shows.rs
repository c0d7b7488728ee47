//! What a case shows.

use std::collections::HashSet;

use case_text::{Dialect, Item, Reply, read};

#[derive(Clone, PartialEq, Eq, Hash)]
pub enum Shown {
    /// A number at a call's end.
    Number(String),
    /// A call's end: its name and number.
    End(String, String),
    /// A kind of action in a call.
    Action(String, char),
    /// An action in a call that got a bus error: the beginning of its frame's command, and whether it was that.
    Error(String, String, char),
    /// The verdict of a load, and the number with which its call ended.
    Verdict(String, String, u8),
    /// A bound of a geometry that a construction took.
    Bound(&'static str),
    /// A call's end after so many actions.
    EndAfter(String, String, usize),
}

/// How a call of a trace ended.
pub struct End {
    name: String,
    number: String,
    actions: Vec<String>,
}

impl End {
    fn letters(&self) -> impl Iterator<Item = char> {
        self.actions
            .iter()
            .filter_map(|action| action.chars().next())
    }

    /// The last action on the bus, and the beginning of the command of its frame.
    fn last_on_bus(&self) -> Option<(String, char)> {
        let last = self
            .actions
            .iter()
            .rposition(|action| action.starts_with(['W', 'R', 'Q', 'P']))?;
        let low = self.actions[..last]
            .iter()
            .rposition(|action| action == "L")?;
        let command = &self.actions[low + 1];
        // The four-line opcodes are the caller's.
        let length = match &command[..4] {
            "W 0F" | "W 1F" => "W 0F C0".len(),
            opcode if opcode.starts_with('W') => opcode.len(),
            _ => 1,
        };
        let kind = if last == low + 1 {
            'C'
        } else {
            self.actions[last].chars().next()?
        };
        Some((command[..length].into(), kind))
    }
}

pub fn ends(trace: &[u8]) -> Vec<End> {
    let mut ends = Vec::new();
    let (mut name, mut actions) = (String::new(), Vec::new());
    for line in String::from_utf8_lossy(trace).lines() {
        match line.split_once(' ').unwrap_or((line, "")) {
            ("call", called) => (name, actions) = (called.into(), Vec::new()),
            ("E", number) => ends.push(End {
                name: name.clone(),
                number: number.into(),
                actions: std::mem::take(&mut actions),
            }),
            ("V" | "G" | "B", _) => {}
            _ => actions.push(line.into()),
        }
    }
    ends
}

/// What the list must show.
pub fn shown(dialect: &Dialect, text: &[u8], trace: &[u8]) -> HashSet<Shown> {
    let mut shown = HashSet::new();
    let ends = ends(trace);
    for end in &ends {
        let name = || end.name.clone();
        shown.insert(Shown::Number(end.number.clone()));
        shown.insert(Shown::End(name(), end.number.clone()));
        shown.extend(end.letters().map(|letter| Shown::Action(name(), letter)));
        if end.number == "1" {
            let place = end.last_on_bus();
            shown.extend(place.map(|(command, letter)| Shown::Error(name(), command, letter)));
        }
    }
    if dialect.own == "geometry" {
        told_by_text(dialect, text, &ends, &mut shown);
    }
    shown
}

/// What it shows beyond that.
pub fn finer(trace: &[u8]) -> HashSet<Shown> {
    let ends = ends(trace).into_iter();
    ends.map(|end| Shown::EndAfter(end.name, end.number, end.actions.len()))
        .collect()
}

/// Calls that load a page and look at its verdict, or not.
const LOADS: [&str; 4] = ["page_read", "read_page", "read", "is_bad_block"];

/// The verdicts and the bounds of a NAND, which a trace does not print.
fn told_by_text(dialect: &Dialect, text: &[u8], ends: &[End], shown: &mut HashSet<Shown>) {
    let mut own = None;
    let mut ends = ends.iter();
    let mut end = None;
    for item in read(text, dialect) {
        match item {
            Item::Own(numbers) => own = numbers,
            Item::Call(call) => {
                end = ends.next();
                let well = end.is_some_and(|end: &End| end.number == "0");
                if let (true, "new", Some(numbers)) = (well, call.name, own) {
                    shown.extend(bounds(numbers).map(Shown::Bound));
                }
            }
            Item::Reply(Reply::Data(bytes)) => {
                if let ([status], Some(End { name, number, .. })) = (&bytes[..], end)
                    && LOADS.contains(&name.as_str())
                    && ["0", "8"].contains(&number.as_str())
                {
                    let verdict = status >> 4 & 3;
                    shown.insert(Shown::Verdict(name.clone(), number.clone(), verdict));
                }
            }
            _ => {}
        }
    }
}

fn bounds([page, spare, pages_per_block, blocks]: [u64; 4]) -> impl Iterator<Item = &'static str> {
    let taken = [
        (spare == 0, "no spare"),
        (page + spare == 65_535, "longest cache"),
        (page == 4_096, "longest page"),
        (page == 1, "shortest page"),
        (pages_per_block * blocks == 16_777_216, "most pages"),
        (pages_per_block * blocks == 1, "one page"),
    ];
    taken
        .into_iter()
        .filter_map(|(holds, name)| holds.then_some(name))
}
