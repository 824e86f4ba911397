//! Random changes of the words behind the spent numbers, and questions for pending answers.

use super::device::*;
use super::layout::{BLOCK, FIGURES_AT, MARKS_AT, SPENT_AT, SPENT_END, TOTAL_AT, UNUSED_AT, WORDS};
use super::pending::Question;
use super::random::{Generator, Rng};

/// Marks of numbers on both sides of an edge, and of such as no stream can have.
const MARKS: [u32; 10] =
    [1, 2, 8, 1023, 1024, 1025, 0x0001_0001, 0x8000_0000, 0xffff_fffe, 0xffff_ffff];
/// Figures and totals on both sides of the highest that there can be, and others.
const FIGURES: [u32; 10] = [0, 1, 32, 33, 34, 255, 256, 264, 265, 0xffff_ffff];
/// Numbers to ask for.
const ASKED: [u32; 11] =
    [0, 1, 7, 1022, 1023, 1024, 1025, 0x0001_0000, 0x8000_0000, u32::MAX - 1, u32::MAX];

/// A value for a word, and the name of the edge that it makes where it is wrong.
type Choice = (u32, &'static str);

impl Generator {
    /// Changes words behind the spent numbers. Gives the edge, if it is one.
    pub fn spoil_behind(&mut self, table: &mut [u32]) -> Option<&'static str> {
        match self.rng.below(14) {
            0 => self.spoil_unused(table),
            1 | 2 => self.spoil_total(table),
            3..6 => self.spoil_mark(table),
            6..9 => self.spoil_figure(table),
            9 | 10 => self.spoil_figures(table),
            11 => self.turn_places(table),
            12 => {
                let at = self.rng.within(SPENT_END, WORDS - 1);
                table[at] ^= 1 << self.rng.below(32);
                None
            }
            _ => {
                self.any_figures(table);
                None
            }
        }
    }

    /// Changes word 4,128 or one of words 4,146 to 4,159.
    fn spoil_unused(&mut self, table: &mut [u32]) -> Option<&'static str> {
        let any = (self.rng.within(UNUSED_AT, WORDS - 1), None);
        let gap = (SPENT_END, Some("word 4,128 not 0"));
        let first = (UNUSED_AT, Some("word 4,146 not 0"));
        let last = (WORDS - 1, Some("word 4,159 not 0"));
        let (at, edge) = self.rng.pick(&[gap, first, last, any, any, any]);
        table[at] = self.rng.pick(&[1, 2, 0x8000_0000, 0xffff_ffff]);
        edge
    }

    fn spoil_total(&mut self, table: &mut [u32]) -> Option<&'static str> {
        let total = table[TOTAL_AT];
        let choices = [
            (0, "total 0"),
            (1, "total 1"),
            (total.wrapping_add(1), "total one more"),
            (total.wrapping_sub(1), "total one less"),
            (total.wrapping_add(256), "total 256 more"),
            (self.rng.below(265) as u32, "total of at most 264"),
            (u32::MAX, "total 2^32 - 1"),
        ];
        self.put_one(table, TOTAL_AT, &choices)
    }

    /// Changes the mark of a place.
    fn spoil_mark(&mut self, table: &mut [u32]) -> Option<&'static str> {
        let (place, other) = self.two_places(table);
        let (mark, others) = (table[MARKS_AT + place], table[MARKS_AT + other]);
        let destroyed = spent_number(&mut self.rng, table).map_or(1, |number| number + 1);
        let live = [
            (0, "mark of a live place 0"),
            (mark.wrapping_sub(1), "mark of a live place without the 1"),
            (mark.wrapping_add(1), "mark of a live place one more"),
            (mark.wrapping_add(1024), "mark of a live place 1,024 more"),
            (mark.wrapping_add(1 << 16), "mark of a live place 2^16 more"),
            (1, "mark of a live place 1"),
            (others, "mark of a live place that of another"),
        ];
        let vacant = [
            (1, "mark of a vacant place 1"),
            (u32::MAX, "mark of a vacant place 2^32 - 1"),
            (destroyed, "mark of a vacant place that of a spent number"),
            (others, "mark of a vacant place that of another"),
        ];
        let choices = if is_live(table, place) { &live[..] } else { &vacant };
        self.put_one(table, MARKS_AT + place, choices)
    }

    /// Changes the figure of a place.
    fn spoil_figure(&mut self, table: &mut [u32]) -> Option<&'static str> {
        let (place, other) = self.two_places(table);
        let (figure, others) = (table[FIGURES_AT + place], table[FIGURES_AT + other]);
        let live = [
            (0, "figure 0"),
            (figure.wrapping_add(1), "figure one more"),
            (figure.wrapping_sub(1), "figure one less"),
            (figure.wrapping_add(256), "figure 256 more"),
            (self.rng.below(34) as u32, "figure of at most 33"),
            (others, "figure of another place"),
            (u32::MAX, "figure 2^32 - 1"),
        ];
        let vacant = [
            (1, "figure of a vacant place 1"),
            (u32::MAX, "figure of a vacant place 2^32 - 1"),
            (others, "figure of a vacant place that of another"),
        ];
        let choices = if is_live(table, place) { &live[..] } else { &vacant };
        self.put_one(table, FIGURES_AT + place, choices)
    }

    /// Changes the figure of a place, and the total or another figure with it.
    fn spoil_figures(&mut self, table: &mut [u32]) -> Option<&'static str> {
        let (place, other) = self.two_places(table);
        let one = self.rng.pick(&[FIGURES_AT + place, FIGURES_AT + other]);
        let (at, edge) = self.rng.pick(&[
            (TOTAL_AT, "figure and total one more"),
            (FIGURES_AT + (place + other) % PLACES, "figure one more, another one less"),
        ]);
        table[one] = table[one].wrapping_add(1);
        table[at] = if at == TOTAL_AT { table[at] + 1 } else { table[at].checked_sub(1)? };
        (one != at).then_some(edge)
    }

    /// Puts marks, figures or both of two places each in the place of the other.
    fn turn_places(&mut self, table: &mut [u32]) -> Option<&'static str> {
        let (one, other) = self.two_places(table);
        let (parts, edge) = self.rng.pick(&[
            (&[MARKS_AT][..], "marks of two places turned"),
            (&[FIGURES_AT], "figures of two places turned"),
            (&[MARKS_AT, FIGURES_AT], "marks and figures of two places turned"),
        ]);
        let mut changed = false;
        for at in parts {
            changed |= table[at + one] != table[at + other];
            table.swap(at + one, at + other);
        }
        changed.then_some(edge)
    }

    /// Makes the figures of pending answers anything, with few marks, so that they meet again.
    pub fn any_figures(&mut self, table: &mut [u32]) {
        let kept = table[MARKS_AT + self.rng.below(PLACES)];
        let word = self.rng.word();
        let marks = [kept, 0, self.rng.pick(&MARKS), self.rng.pick(&MARKS), word];
        let few = self.rng.within(1, marks.len());
        for mark in &mut table[MARKS_AT..FIGURES_AT] {
            *mark = self.rng.pick(&marks[..few]);
        }
        for at in (FIGURES_AT..UNUSED_AT).chain([TOTAL_AT]) {
            table[at] =
                if self.rng.percent(50) { self.rng.pick(&FIGURES) } else { self.rng.word() };
        }
    }

    /// Sets a word to one of these values. Gives the edge where it is another than before.
    fn put_one(
        &mut self,
        table: &mut [u32],
        at: usize,
        choices: &[Choice],
    ) -> Option<&'static str> {
        let (value, edge) = self.rng.pick(choices);
        let kept = std::mem::replace(&mut table[at], value);
        (value != kept).then_some(edge)
    }

    /// Two places, one of them live, if any is: mostly the first.
    fn two_places(&mut self, table: &[u32]) -> (usize, usize) {
        let any = self.rng.below(PLACES);
        let live = (0..PLACES).map(|on| (any + on) % PLACES).find(|&place| is_live(table, place));
        let live = live.unwrap_or(any);
        let other = (live + self.rng.within(1, PLACES - 1)) % PLACES;
        if self.rng.percent(60) {
            (live, other)
        } else {
            (other, live)
        }
    }
}

fn is_live(table: &[u32], place: usize) -> bool {
    table[place * BLOCK] == 1
}

/// A number that is spent, if there is one.
fn spent_number(rng: &mut Rng, table: &[u32]) -> Option<u32> {
    let words = table.get(SPENT_AT..SPENT_END)?;
    let first = rng.below(words.len());
    let word = (0..words.len()).map(|on| (first + on) % words.len()).find(|&at| words[at] != 0)?;
    let turned = rng.below(32) as u32;
    let bit = words[word].rotate_right(turned).trailing_zeros() + turned;
    Some(word as u32 * 32 + bit % 32)
}

/// Questions for a table after a step: the total, the step's own stream, one by a mark, a spent number,
/// any that a stream can have, and one at an edge.
pub fn questions(rng: &mut Rng, table: &[u32], act: &Act) -> [Question; 6] {
    let any = rng.below(NUMBERS) as u32;
    let mark = table.get(MARKS_AT + rng.below(PLACES)).copied().unwrap_or(0);
    let beside = rng.pick(&[0, 0, 1, u32::MAX, 1024, 1 << 16]);
    let numbers = [
        act.stream().unwrap_or(any),
        mark.wrapping_sub(1).wrapping_add(beside),
        spent_number(rng, table).unwrap_or(1023),
        any,
        rng.pick(&ASKED),
    ];
    let [own, marked, spent, any, odd] = numbers.map(Question::OfStream);
    [Question::InAll, own, marked, spent, any, odd]
}

/// The total, and for each mark its number and those beside it, with some at an edge.
pub fn all_questions(table: &[u32]) -> impl Iterator<Item = Question> + '_ {
    let marks = table.get(MARKS_AT..FIGURES_AT).unwrap_or(&[]);
    let by_marks = marks.iter().flat_map(|mark| [0, 1, 2].map(|less| mark.wrapping_sub(less)));
    [Question::InAll].into_iter().chain(by_marks.chain(ASKED).map(Question::OfStream))
}
