//! What is asked of a file without some private tuples and again of the file with them: every
//! call that takes a file and writes none. The archive's own answer about the one tells, under
//! the map of places, what it must answer about the other.

use crate::answers::{five, CODE, PLACE, TUPLES};
use crate::batch::{numbers, Arg, Batch, File, Left};
use crate::boundary::kind_of;
use crate::echoes::few_enough;
use crate::exports::{export, Export};
use crate::private::{Map, Partners};
use crate::readings::views_of;
use crate::walked::{walked, FIRST};
use second::gen::Rng;
use second::layout::EVENT_MARKER;
use second::pings::Ping;
use second::walk::{forward, Step, Tuple};
use second::{Answer, PingKind};
use std::io;

/// The code of a value outside the limits of an energy, whose place is one in the ping's list of
/// samples; and that of a length that is not allowed, for which no byte behind it is looked at.
const OUTSIDE: u64 = 29;
const BAD_LENGTH: u32 = 5;

/// Of a file of more tuples than this about so many are read, evenly apart.
const MANY: usize = 100;

/// So many places within tuples are drawn; where an event marker has its text is another.
const WITHIN: usize = 3;
const TEXT_AT: u64 = 12;

/// What is lent where nothing is to be written.
const REFUSED: usize = 12;

/// The bytes of a tuple's size.
const SIZE: u64 = 4;

/// The bytes of the numbers that slices have.
const BYTE: usize = 1;
const HALF: usize = 2;
const WORD: usize = 4;
const LONG: usize = 8;

/// Who tells of a ping at a place, the code of another tuple there, and of how many private
/// tuples they are asked.
const READERS: [&str; 3] = ["read_ping", "ask", "energy"];
const OTHER_TYPE: u32 = 9;
const ASKED: usize = 4;

/// A record's type, to be asked for where another tuple stands.
const SOME_RECORD: u16 = 20;

/// What lent memory holds once it is written to.
#[derive(Clone, Copy, PartialEq, Eq)]
enum Holds {
    Places,
    /// What no private tuple alters.
    Content,
}

/// What a call is handed, of the file without private tuples.
#[derive(Clone, Copy)]
enum Part {
    File,
    Place(u64),
    /// A place as that behind a tuple.
    Behind(u64),
    Number(u64),
    Lent {
        entries: usize,
        width: usize,
        holds: Holds,
    },
}

fn content(entries: usize, width: usize) -> Part {
    Part::Lent {
        entries,
        width,
        holds: Holds::Content,
    }
}

fn places(entries: usize) -> Part {
    Part::Lent {
        entries,
        width: LONG,
        holds: Holds::Places,
    }
}

/// A call about a file.
pub struct Question {
    export: Export,
    parts: Vec<Part>,
}

impl Question {
    /// A call whose first argument is the file.
    fn new(name: &str, more: impl IntoIterator<Item = Part>) -> Question {
        Question {
            export: export(name),
            parts: [Part::File].into_iter().chain(more).collect(),
        }
    }

    /// Makes it of the file without private tuples, to be heard.
    pub fn ask(&self, batch: &mut Batch, before: &mut File) {
        let arguments: Vec<Arg> = self
            .parts
            .iter()
            .map(|part| part.of(batch, before))
            .collect();
        batch.ask(self.export, &arguments);
    }

    /// Makes it of the file with them. Gives the numbers that it must answer.
    pub fn ask_again(
        &self,
        batch: &mut Batch,
        after: &mut File,
        partners: &Partners,
        left: &Left,
    ) -> Vec<u64> {
        let accepted = left.answer[CODE] == 0;
        let mut slices = left.slices.iter();
        let mut arguments = Vec::new();
        for part in &self.parts {
            arguments.push(match part {
                Part::Lent { width, holds, .. } => {
                    let held = slices.next().map_or(&[][..], |slice| slice);
                    let held = match holds {
                        Holds::Places if accepted => moved_places(held, &partners.map),
                        _ => held.to_vec(),
                    };
                    batch.lend_of(&held, *width)
                }
                Part::Place(place) => partners.map.place(*place).into(),
                Part::Behind(place) => partners.map.behind(*place).into(),
                Part::File | Part::Number(_) => part.of(batch, after),
            });
        }
        let numbers = moved_numbers(self.export.name, &left.answer, partners);
        batch.call(self.export, &arguments, &numbers);
        numbers
    }

    pub fn name(&self) -> &'static str {
        self.export.name
    }
}

impl Part {
    fn of(&self, batch: &mut Batch, file: &mut File) -> Arg {
        match self {
            Part::File => batch.file(file).into(),
            Part::Place(number) | Part::Behind(number) | Part::Number(number) => (*number).into(),
            Part::Lent { entries, width, .. } => batch.lend_of(&vec![0; entries * width], *width),
        }
    }
}

/// Places that a call wrote, one for each entry.
fn moved_places(held: &[u8], map: &Map) -> Vec<u8> {
    let places = numbers(held).into_iter().map(|place| map.place(place));
    places.flat_map(u64::to_le_bytes).collect()
}

/// Which calls count the tuples of the file.
const COUNTING: [&str; 6] = ["check", "ask", "settings", "energy", "energies", "readings"];

/// Which calls tell of a refusal at the place behind a tuple.
const BEHIND: [&str; 2] = ["backward", "normalise_tuple"];

/// Where a step's next place stands, and, of each call, where in its acceptance the places of
/// tuples and what is within them do.
const NEXT: usize = 8;
const PLACES: [(&str, &[usize]); 4] = [
    ("forward", &[5]),
    ("backward", &[5, NEXT]),
    ("ask", &[6, 10]),
    ("read_record", &[5]),
];

/// What a call must answer, by what it answered without private tuples.
fn moved_numbers(name: &str, answer: &[u64], partners: &Partners) -> Vec<u64> {
    let map = &partners.map;
    let mut numbers = answer.to_vec();
    match numbers[CODE] {
        0 if COUNTING.contains(&name) => numbers[TUPLES] += partners.more(),
        // the end of a walk, with no field behind it
        0 if numbers[TUPLES] == 0 => return numbers,
        0 | OUTSIDE => {}
        _ if BEHIND.contains(&name) => numbers[PLACE] = map.behind(numbers[PLACE]),
        _ => numbers[PLACE] = map.place(numbers[PLACE]),
    }
    if numbers[CODE] == 0 {
        let own = PLACES.iter().filter(|(call, _)| *call == name);
        for entry in own.flat_map(|(_, entries)| *entries) {
            numbers[*entry] = map.place(numbers[*entry]);
        }
        if name == "forward" {
            numbers[NEXT] = map.behind(numbers[NEXT]);
        }
    }
    numbers
}

/// Everything that is asked of an accepted file.
pub fn questions(file: &[u8], rng: &mut Rng) -> Vec<Question> {
    let tuples: Vec<Tuple> = walked(file).map(|(_, tuple)| tuple).collect();
    let pings = tuples.iter().filter(|tuple| is_ping(tuple));
    let pings: Vec<u64> = pings.map(|tuple| tuple.place).collect();
    let mut questions = vec![
        Question::new("check", []),
        Question::new("normalise_tuple", [content(0, BYTE)]),
        Question::new("settings", [places(pings.len()); 3]),
        energies(pings.len()),
    ];
    questions.extend(steps(file, &tuples));
    let apart = tuples.len().div_ceil(MANY).max(1);
    for tuple in tuples.iter().step_by(apart) {
        questions.extend(readers(file, tuple));
    }
    let drawn: Vec<u64> = (0..WITHIN).map(|_| within(rng, &tuples)).collect();
    questions.extend(inside(file, &tuples, &drawn));
    let end = file.len() as u64;
    let nowhere = drawn.into_iter().chain([0, FIRST - 1, end, end + 1]);
    let nowhere: Vec<u64> = nowhere.collect();
    questions.extend(nowhere.iter().map(|place| removal(*place)));
    let asked = few_enough(pings.into_iter().chain(nowhere).collect(), file);
    questions.extend(asked.iter().flat_map(|place| asking(file, *place, rng)));
    questions
}

fn is_ping(tuple: &Tuple) -> bool {
    PingKind::of(tuple.code).is_some()
}

fn energies(pings: usize) -> Question {
    let lent = [places(pings), content(pings, LONG), content(pings, BYTE)];
    Question::new("energies", lent)
}

/// Both walks all through, and a step back from where there is no room for a tuple.
fn steps(file: &[u8], tuples: &[Tuple]) -> Vec<Question> {
    let end = file.len() as u64;
    let mut steps = vec![
        Question::new("forward", [Part::Place(end)]),
        Question::new("backward", [Part::Behind(FIRST)]),
        Question::new("backward", [Part::Behind(FIRST + 1)]),
    ];
    for tuple in tuples {
        steps.push(Question::new("forward", [Part::Place(tuple.place)]));
        steps.push(Question::new("backward", [Part::Behind(tuple.end())]));
    }
    steps
}

/// Every reader at a tuple's place, lent just enough for what it has.
fn readers(file: &[u8], tuple: &Tuple) -> Vec<Question> {
    let place = Part::Place(tuple.place);
    let values = match Ping::read(file, tuple.place) {
        Ok((_, ping)) => ping.values as usize,
        Err(_) => 0,
    };
    let (words, halves) = (content(values, WORD), content(values, HALF));
    let (code, numbers) = match kind_of(tuple.code) {
        Some(kind) => (tuple.code, kind.numbers),
        None => (SOME_RECORD, 1),
    };
    let asked = Part::Number(code.into());
    vec![
        Question::new("read_ping", [place]),
        Question::new("read_samples", [place, words, words]),
        Question::new("read_angles", [place, words, halves, halves]),
        Question::new("read_record", [place, asked, content(numbers, WORD)]),
    ]
}

/// A place within some tuple.
fn within(rng: &mut Rng, tuples: &[Tuple]) -> u64 {
    let tuple = &tuples[rng.index(tuples.len())];
    tuple.place + 1 + rng.below(tuple.length - 1)
}

/// Steps and readers at places within tuples, these and where an event marker has its text: where
/// a step looks at bytes of the tuple alone, for what stands behind that is another.
fn inside(file: &[u8], tuples: &[Tuple], drawn: &[u64]) -> Vec<Question> {
    let mut inside = Vec::new();
    for outer in tuples {
        let own = drawn
            .iter()
            .copied()
            .filter(|place| (outer.place..outer.end()).contains(place));
        let text = (outer.code == EVENT_MARKER).then_some(outer.place + TEXT_AT);
        for place in own.chain(text) {
            match forward(file, place) {
                Step::Tuple { tuple, .. } if tuple.end() <= outer.end() => {
                    inside.push(Question::new("forward", [Part::Place(place)]));
                    inside.extend(readers(file, &tuple));
                }
                Step::Refused(Answer {
                    code: BAD_LENGTH, ..
                }) if place + SIZE <= outer.end() => {
                    inside.push(Question::new("forward", [Part::Place(place)]));
                    inside.push(Question::new("read_ping", [Part::Place(place)]));
                }
                _ => {}
            }
        }
    }
    inside
}

/// A removal where no tuple starts, which writes nothing.
fn removal(place: u64) -> Question {
    let lent = content(REFUSED, BYTE);
    Question::new("remove", [Part::Place(place), lent])
}

/// What checks the whole file and tells of the ping at a place.
fn asking(file: &[u8], place: u64, rng: &mut Rng) -> Vec<Question> {
    let views = views_of(file, place);
    let view = views[rng.index(views.len())];
    let at = Part::Place(place);
    let lent = [content(view.lent[0], BYTE), content(view.lent[1], LONG)];
    let window = [at, Part::Number(view.first), lent[0], lent[1]];
    vec![
        Question::new("ask", [at]),
        Question::new("energy", [at]),
        Question::new("readings", window),
    ]
}

/// What the file without private tuples has no answer to: the walks over them, and that they are
/// no pings.
pub fn step_over(batch: &mut Batch, after: &mut File, partners: &Partners) -> io::Result<()> {
    for (nth, (place, put)) in partners.placed().enumerate() {
        let end = place + put.length();
        for (name, from, next) in [("forward", place, end), ("backward", end, place)] {
            let mut numbers = five(Answer::accepted(1, 0));
            numbers.extend([place, put.length(), put.code.into(), next]);
            let given = batch.file(after);
            batch.call(export(name), &[given.into(), from.into()], &numbers);
        }
        let readers = if nth < ASKED { &READERS[..] } else { &[] };
        for name in readers {
            let given = batch.file(after);
            let refusal = five(Answer::refused(OTHER_TYPE, place));
            batch.call(export(name), &[given.into(), place.into()], &refusal);
        }
        batch.rest()?;
    }
    Ok(())
}
