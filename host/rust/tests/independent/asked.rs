//! What a run has met of questions for pending answers, each with the names of what it met.

use super::device::*;
use super::layout::{FIGURES_AT, MARKS_AT, WORDS};
use super::pending::{by_words, of_stream, Question};

/// A live stream in each place, on a valid table.
const LIVE: [Why; PLACES] = [
    "live stream in place 0",
    "live stream in place 1",
    "live stream in place 2",
    "live stream in place 3",
    "live stream in place 4",
    "live stream in place 5",
    "live stream in place 6",
    "live stream in place 7",
];

/// The first place with the mark of the number, on a table that is not valid.
const MARKED: [Why; PLACES] = [
    "number marked in place 0, table not valid",
    "number marked in place 1, table not valid",
    "number marked in place 2, table not valid",
    "number marked in place 3, table not valid",
    "number marked in place 4, table not valid",
    "number marked in place 5, table not valid",
    "number marked in place 6, table not valid",
    "number marked in place 7, table not valid",
];

/// All names of questions on tables that are long enough.
pub fn wanted() -> Vec<Why> {
    let table = vec![0; WORDS];
    let mut names = Names::new();
    for question in [Question::InAll, Question::OfStream(0)] {
        names.extend(of_valid(&Device::default(), question));
        names.extend(of_any(&table, question));
    }
    names.into_iter().map(|name| name.0).chain(LIVE).chain(MARKED).collect()
}

/// The names of a question on this table, with its records if it is valid. It has none on a short one.
pub fn names(table: &[u32], device: Option<&Device>, question: Question) -> Vec<Why> {
    if table.len() < WORDS {
        return Vec::new();
    }
    let names = match device {
        Some(device) => of_valid(device, question),
        None => of_any(table, question),
    };
    let place = match (device, question) {
        (_, Question::InAll) => None,
        (Some(device), Question::OfStream(number)) => device.place_of(number).map(|at| LIVE[at]),
        (None, Question::OfStream(number)) => {
            places_marked(table, number).next().map(|at| MARKED[at])
        }
    };
    names.into_iter().filter(|name| name.1).map(|name| name.0).chain(place).collect()
}

/// The places with the mark of this number.
fn places_marked(table: &[u32], number: u32) -> impl Iterator<Item = usize> + '_ {
    (0..PLACES).filter(move |place| table[MARKS_AT + place].checked_sub(1) == Some(number))
}

type Names = Vec<(Why, bool)>;

fn of_valid(device: &Device, question: Question) -> Names {
    let Question::OfStream(number) = question else {
        let total: u32 = device.streams().map(of_stream).sum();
        return vec![
            ("total, valid table", true),
            ("total 0, valid table", total == 0),
            ("total of 256 or more, valid table", total >= 256),
        ];
    };
    let figure = device.stream(number).map(of_stream);
    let place = device.place_of(number);
    let unknown = place.is_none();
    let others = device.streams().any(|other| of_stream(other) > 0);
    let vacant = device.places.iter().any(Option::is_none);
    let never = unknown && !device.spent.has(number);
    vec![
        ("live stream, nothing pending", figure == Some(0)),
        ("live stream, 33 pending", figure == Some(33)),
        (
            "live stream behind a vacant place",
            place.is_some_and(|place| device.places[..place].iter().any(Option::is_none)),
        ),
        ("destroyed stream", device.destroyed(number)),
        ("number never used", never && number < 1023),
        ("number 0, not live", unknown && number == 0),
        ("number 1,023, not live", unknown && number == 1023),
        ("number 1,024", number == 1024),
        ("number 2^32 - 2", number == u32::MAX - 1),
        ("number 2^32 - 1, a place vacant", number == u32::MAX && vacant),
        ("number 2^32 - 1, no place vacant", number == u32::MAX && !vacant),
        ("unknown stream, answers pending to others", unknown && others),
    ]
}

/// Of a table that is not valid.
fn of_any(table: &[u32], question: Question) -> Names {
    let Question::OfStream(number) = question else {
        let total = by_words(table, question).pending;
        return vec![
            ("total, table not valid", true),
            ("total above 264, table not valid", total > 264),
        ];
    };
    let marked: Vec<usize> = places_marked(table, number).collect();
    let has_mark = |mark| table[MARKS_AT..FIGURES_AT].contains(&mark);
    let high = !marked.is_empty() && number as usize >= NUMBERS;
    vec![
        ("number without a mark, table not valid", marked.is_empty()),
        ("number marked in several places", marked.len() > 1),
        ("number above 1,023 marked", high),
        ("number 2^32 - 2 marked", high && number == u32::MAX - 1),
        (
            "figure above 33 marked",
            marked.first().is_some_and(|place| table[FIGURES_AT + place] > 33),
        ),
        ("number 2^32 - 1, a mark 0, table not valid", number == u32::MAX && has_mark(0)),
        ("number 2^32 - 1, a mark 2^32 - 1", number == u32::MAX && has_mark(u32::MAX)),
    ]
}
