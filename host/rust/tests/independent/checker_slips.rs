//! Wrong variants of the checker, each with one slip. The comparison has to catch every one of them,
//! else it is too weak.
//!
//! A variant goes through the whole log and notes each line that is wrong for it; that it gives the
//! first of them makes it the checker.

use super::by_hand;
use super::checker::{answers, same, sort, Fault, Sort, Verdict};
use super::log::{line_of, lines, Log, MOST_DIGITS};
use CheckSlip::*;
use Fault::*;
use Place::*;

#[derive(Clone, Copy, Debug, PartialEq, Eq)]
pub enum CheckSlip {
    // Of lines.
    /// This byte ends a line too.
    AlsoEnds(u8),
    /// This byte ends the log.
    EndsLog(u8),
    /// This byte is passed over.
    PassedOver(u8),
    /// This byte is passed over at the end of a line.
    Trimmed(u8),
    /// An empty line is not counted.
    EmptyLineSkipped,
    /// An empty line is the end.
    EmptyLineEnds,
    /// A log that ends in byte 10 has an empty line behind it.
    EmptyLastLineCounted,
    /// A last line without byte 10 is not counted.
    LastLineDropped,
    /// A line ends where a read does.
    CutAtRead,
    /// What was read before of a line is forgotten at the next read.
    ForgottenAtRead,
    /// The first read is taken for the whole log.
    FirstReadOnly,
    /// An over-long line is as many lines as buffers.
    OverLongInParts,
    /// Of an over-long line its head is taken.
    OverLongHead,
    /// Of an over-long line its tail is taken.
    OverLongTail,
    /// An over-long line is not counted.
    OverLongSkipped,

    // Of what a line is.
    /// A line that begins so is an answer.
    PrefixTaken(&'static str),
    /// A line that begins so is no answer.
    PrefixRefused(&'static str),
    /// Of the first two bytes only these bits are looked at, beside their case.
    PrefixMasked(u8),
    /// An answer may have so many bytes.
    MostOfAnswer(usize),
    /// A question may have so many bytes.
    MostOfQuestion(usize),
    /// A question with upper-case digits is none.
    UpperQuestionRefused,
    /// A question with lower-case digits is none.
    LowerQuestionRefused,
    /// A question that begins so is none.
    QuestionRefused(&'static str),
    /// A command of under 8 bytes is no question.
    ShortCommandRefused,

    // Of the steps.
    /// Stream 7 is there at the start.
    NotFresh,
    /// Each question finds a fresh table.
    FreshEachQuestion,
    /// A refused step makes the table fresh.
    FreshAfterRefusal,
    /// Each question is executed twice.
    ExecutedTwice,
    /// A step without answers is not executed.
    SilentNotExecuted,

    // Of the answers due.
    /// A step refused with this number has nothing due.
    NothingDueToRefused(u8),
    /// A step without answers has this line due.
    DueToSilent(&'static str),
    /// Of a step only the first answer is due.
    OnlyFirstDue,
    /// Of a step only the last answer is due.
    OnlyLastDue,
    DueReversed,
    DueSorted,
    /// The answers of a step are due in one line.
    DueJoined,
    /// Any of the answers due may come next.
    OrderIgnored,

    // Of the bytes of an answer.
    CaseMatters,
    /// The case matters in a line of this first digit.
    CaseMattersBehind(u8),
    /// The case of this digit matters.
    CaseMattersOf(u8),
    /// Digits of both cases in one line differ.
    MixedCaseDiffers,
    /// Of a byte only these bits are compared, beside its case.
    Masked(u8),
    /// This byte passes for any digit.
    WildDigit(u8),
    /// A byte that is no digit passes for a zero.
    NoDigitIsZero,
    /// The value of a digit is what is left above `0`, or above `a` and 10.
    DigitsNotChecked,
    /// Only so many characters are compared.
    ComparedUpTo(usize),
    /// Only the characters from here on are compared.
    ComparedFrom(usize),
    /// Nothing is compared behind a byte 0.
    ComparedUpToNul,
    /// The last digit of an odd number is not compared.
    OddDigitIgnored,
    /// An answer that is cut passes.
    ShorterTaken,
    /// More behind an answer passes.
    LongerTaken,
    /// Of the answers of a step only the first is compared.
    FirstCompared,
    /// Of the answers of a step the first is not compared.
    FirstNotCompared,

    // Of the verdict.
    /// What is wrong so there passes.
    Passes(Fault, Place),
    /// What is wrong so there is called that.
    Calls(Fault, Place, Fault),
    /// What is wrong so there is named by this line.
    Names(Fault, Place, Name),
    /// Only these bits of the line's number are there.
    NumberIn(usize),
    /// Only questions are counted.
    QuestionsCounted,
    /// Only answers are counted.
    AnswersCounted,
    /// The check goes on, and the last wrong line is named.
    LastWrong,
    /// The check goes on, and the first that is wrong so is named.
    Outranks(Fault),
    /// An empty log is wrong.
    EmptyLog(Fault),
    /// A log without any answer is accepted.
    WithoutAnswersAccepted,
}

/// Where a wrong line stands, or how it looks.
#[derive(Clone, Copy, Debug, PartialEq, Eq)]
pub enum Place {
    Anywhere,
    FirstLine,
    LastLine,
    /// The last line has no byte 10.
    WithoutByte10,
    /// Behind the last line.
    AtEnd,
    BeforeEnd,
    BeforeQuestions,
    /// Behind a step without answers.
    BehindSilence,
    /// Behind the answers of a step.
    BehindAnswers,
    /// Behind a refused step and its line.
    BehindRefusal,
    /// Where the first answer of a step is due.
    FirstDue,
    /// Where a later answer of a step is due.
    LaterDue,
    /// Where the line of a refused step is due.
    RefusalDue,
    Empty,
    OverLong,
    OverLongAnswer,
    /// Of as many bytes as a line may have.
    Longest,
    /// 80 or ff alone.
    PrefixAlone,
    OddDigits,
    NoDigits,
    UpperCase,
    /// It begins with ff.
    Refusal,
}

/// The line that a slip names.
#[derive(Clone, Copy, Debug, PartialEq, Eq)]
pub enum Name {
    LineBefore,
    LineBehind,
    /// The question that the line belongs to, or 0.
    Question,
    Last,
}

/// The slips of single names; the others are made from where each fault can stand.
const NAMED: &[CheckSlip] = &[
    AlsoEnds(0),
    AlsoEnds(0x0b),
    AlsoEnds(0x0c),
    AlsoEnds(b'\r'),
    EndsLog(0),
    EndsLog(0x1a),
    EndsLog(0xff),
    PassedOver(b' '),
    PassedOver(b'\r'),
    PassedOver(0),
    Trimmed(b' '),
    Trimmed(b'\t'),
    Trimmed(b'\r'),
    EmptyLineSkipped,
    EmptyLineEnds,
    EmptyLastLineCounted,
    LastLineDropped,
    CutAtRead,
    ForgottenAtRead,
    FirstReadOnly,
    OverLongInParts,
    OverLongHead,
    OverLongTail,
    OverLongSkipped,
    PrefixMasked(0x7f),
    PrefixMasked(0xbf),
    PrefixMasked(0xdf),
    PrefixMasked(0xef),
    MostOfAnswer(250),
    MostOfAnswer(MOST_DIGITS - 1),
    MostOfAnswer(MOST_DIGITS + 1),
    MostOfAnswer(usize::MAX),
    MostOfQuestion(MOST_DIGITS - 1),
    MostOfQuestion(MOST_DIGITS / 2),
    UpperQuestionRefused,
    LowerQuestionRefused,
    QuestionRefused("01"),
    QuestionRefused("02"),
    ShortCommandRefused,
    NotFresh,
    FreshEachQuestion,
    FreshAfterRefusal,
    ExecutedTwice,
    SilentNotExecuted,
    NothingDueToRefused(b'4'),
    NothingDueToRefused(b'5'),
    NothingDueToRefused(b'6'),
    DueToSilent("ff00"),
    DueToSilent("80"),
    OnlyFirstDue,
    OnlyLastDue,
    DueReversed,
    DueSorted,
    DueJoined,
    OrderIgnored,
    CaseMatters,
    CaseMattersBehind(b'8'),
    CaseMattersBehind(b'f'),
    CaseMattersOf(b'A'),
    CaseMattersOf(b'F'),
    MixedCaseDiffers,
    Masked(0x7f),
    Masked(0xbf),
    Masked(0xdf),
    Masked(0xef),
    WildDigit(b'x'),
    WildDigit(b'X'),
    WildDigit(b'?'),
    WildDigit(b'.'),
    WildDigit(0),
    NoDigitIsZero,
    DigitsNotChecked,
    ComparedUpTo(2),
    ComparedUpTo(3),
    ComparedUpTo(4),
    ComparedUpTo(10),
    ComparedUpTo(18),
    ComparedUpTo(25),
    ComparedUpTo(26),
    ComparedUpTo(57),
    ComparedUpTo(58),
    ComparedUpTo(249),
    ComparedFrom(2),
    ComparedFrom(10),
    ComparedFrom(18),
    ComparedUpToNul,
    OddDigitIgnored,
    ShorterTaken,
    LongerTaken,
    FirstCompared,
    FirstNotCompared,
    NumberIn(0xff),
    NumberIn(0xffff),
    QuestionsCounted,
    AnswersCounted,
    LastWrong,
    WithoutAnswersAccepted,
];

/// Beginnings that are none of an answer, though some of them are 80 or ff where digits are not
/// checked, and the beginnings of answers.
pub const NO_PREFIXES: &[&str] = &[
    "8",
    "f",
    "F",
    "08",
    "0f",
    "7f",
    "7g",
    "7G",
    "8O",
    "8o",
    "81",
    "88",
    "9 ",
    "ef",
    "fe",
    "f?",
    "fg",
    "0x80",
    "0xff",
    " 80",
    " ff",
    "-80",
    "\\x80",
    "#80",
    "\u{feff}80",
];
const PREFIXES: &[&str] = &["80", "ff", "fF", "Ff", "FF"];

const FAULTS: [Fault; 4] = [Missing, Extra, Different, Refused];

/// Where each fault can stand.
const PLACES: &[(Fault, &[Place])] = &[
    (Missing, &[Anywhere, LastLine, WithoutByte10, AtEnd, BeforeEnd]),
    (Missing, &[FirstDue, LaterDue, RefusalDue, Longest, UpperCase]),
    (Extra, &[Anywhere, FirstLine, LastLine, WithoutByte10, BeforeQuestions]),
    (Extra, &[BehindSilence, BehindAnswers, BehindRefusal]),
    (Extra, &[Longest, PrefixAlone, OddDigits, NoDigits, UpperCase, Refusal]),
    (Different, &[Anywhere, LastLine, WithoutByte10, FirstDue, LaterDue, RefusalDue]),
    (Different, &[Longest, PrefixAlone, OddDigits, NoDigits, UpperCase, Refusal]),
    (Refused, &[Anywhere, FirstLine, LastLine, WithoutByte10, BeforeQuestions]),
    (Refused, &[BehindSilence, BehindAnswers, BehindRefusal, FirstDue, LaterDue, RefusalDue]),
    (Refused, &[Empty, OverLong, OverLongAnswer, OddDigits, NoDigits, UpperCase, Refusal]),
];

/// Every slip there is.
pub fn all() -> Vec<CheckSlip> {
    let mut slips = NAMED.to_vec();
    slips.extend(NO_PREFIXES.iter().map(|prefix| PrefixTaken(prefix)));
    slips.extend(PREFIXES.iter().map(|prefix| PrefixRefused(prefix)));
    for fault in FAULTS {
        slips.extend([Outranks(fault), EmptyLog(fault)]);
    }
    for (fault, places) in PLACES {
        for place in *places {
            slips.push(Passes(*fault, *place));
            let others = FAULTS.into_iter().filter(|other| other != fault);
            slips.extend(others.map(|other| Calls(*fault, *place, other)));
            let names = [Name::LineBefore, Name::LineBehind, Name::Question, Name::Last];
            // There the last line is the right one, or the line before.
            let names = names.into_iter().filter(|name| *name != Name::Last || !place.is_last());
            slips.extend(names.map(|name| Names(*fault, *place, name)));
        }
    }
    slips
}

impl Place {
    fn is_last(self) -> bool {
        matches!(self, LastLine | WithoutByte10 | AtEnd)
    }
}

/// The verdict on a log read in these pieces, with a slip or with none.
pub fn check(slip: Option<CheckSlip>, pieces: &[&[u8]]) -> Verdict {
    let text = read(slip, pieces);
    let lines = split(slip, text.clone());
    let open = !text.is_empty() && !text.ends_with(b"\n");
    let mut checker = WrongChecker { slip, open, count: lines.len(), ..Default::default() };
    if slip == Some(NotFresh) {
        checker.definition.line(&line_of(&by_hand::create()));
    }
    for line in &lines {
        checker.line(line);
    }
    checker.end();
    match slip {
        Some(EmptyLog(fault)) if text.is_empty() => Verdict::Wrong(1, fault),
        Some(WithoutAnswersAccepted) if checker.answers == 0 => Verdict::Accepted,
        _ => checker.verdict(),
    }
}

/// The bytes of the log as they are read.
fn read(slip: Option<CheckSlip>, pieces: &[&[u8]]) -> Vec<u8> {
    let mut text = Vec::new();
    for piece in pieces {
        if slip == Some(ForgottenAtRead) {
            drop_open_line(&mut text);
        }
        text.extend_from_slice(piece);
        if slip == Some(CutAtRead) && text.last().is_some_and(|&last| last != 10) {
            text.push(10);
        }
        if slip == Some(FirstReadOnly) {
            break;
        }
    }
    text
}

/// Drops what has no byte 10 behind it.
fn drop_open_line(text: &mut Vec<u8>) {
    text.truncate(text.iter().rposition(|&byte| byte == 10).map_or(0, |at| at + 1));
}

/// The lines that are counted.
fn split(slip: Option<CheckSlip>, mut text: Vec<u8>) -> Vec<Vec<u8>> {
    match slip {
        Some(AlsoEnds(end)) => text.iter_mut().filter(|b| **b == end).for_each(|b| *b = 10),
        Some(EndsLog(end)) => {
            text.truncate(text.iter().position(|&byte| byte == end).unwrap_or(text.len()));
        }
        Some(PassedOver(over)) => text.retain(|&byte| byte != over),
        Some(LastLineDropped) => drop_open_line(&mut text),
        Some(EmptyLastLineCounted) if text.ends_with(b"\n") => text.push(10),
        _ => {}
    }
    let mut lines: Vec<Vec<u8>> = lines(&text).into_iter().map(<[u8]>::to_vec).collect();
    match slip {
        Some(EmptyLineSkipped) => lines.retain(|line| !line.is_empty()),
        Some(EmptyLineEnds) => lines = lines.into_iter().take_while(|l| !l.is_empty()).collect(),
        Some(OverLongSkipped) => lines.retain(|line| line.len() <= MOST_DIGITS),
        Some(OverLongInParts) => lines = lines.iter().flat_map(|line| parts(line)).collect(),
        Some(OverLongHead) => lines.iter_mut().for_each(|line| line.truncate(MOST_DIGITS)),
        Some(OverLongTail) => lines.iter_mut().for_each(|line| *line = parts(line).pop().unwrap()),
        Some(Trimmed(over)) => {
            for line in &mut lines {
                line.truncate(line.iter().rposition(|&byte| byte != over).map_or(0, |at| at + 1));
            }
        }
        _ => {}
    }
    lines
}

/// A line in parts that are not over-long, of which there is at least one.
fn parts(line: &[u8]) -> Vec<Vec<u8>> {
    if line.is_empty() {
        return vec![Vec::new()];
    }
    line.chunks(MOST_DIGITS).map(<[u8]>::to_vec).collect()
}

/// Whether the line begins with 80 or ff in these bits.
fn prefix_masked(line: &[u8], mask: u8) -> bool {
    let begins = |prefix: &[u8]| Masked(mask).same_bytes(&line[..2], prefix);
    line.len() >= 2 && (begins(b"80") || begins(b"ff"))
}

/// The checker between two lines.
#[derive(Default)]
struct WrongChecker {
    slip: Option<CheckSlip>,
    definition: Log,
    /// Lines of the log, and whether the last has no byte 10.
    count: usize,
    open: bool,
    /// Lines so far, and those of them that were taken for questions and answers.
    number: usize,
    questions: usize,
    answers: usize,
    /// The line of the last question, all that is due to it, and how much of that stood there.
    asked: Option<usize>,
    due: Vec<Vec<u8>>,
    had: usize,
    /// Each wrong line as the slip names it.
    wrong: Vec<(usize, Fault)>,
}

impl WrongChecker {
    fn line(&mut self, line: &[u8]) {
        self.number += 1;
        match self.sort(line) {
            Sort::Neither => self.wrong(Refused, Some(line)),
            Sort::Question => {
                self.questions += 1;
                if self.had < self.due.len() {
                    self.wrong(Missing, Some(line));
                }
                self.due = self.due_for(line);
                self.had = 0;
                self.asked = Some(self.number);
            }
            Sort::Answer => {
                self.answers += 1;
                let due = self.had..self.due.len();
                let taken = due.clone().find(|&due| self.same(line, due));
                match taken {
                    _ if due.is_empty() => self.wrong(Extra, Some(line)),
                    Some(any) if any == due.start || self.slip == Some(OrderIgnored) => {
                        self.due.swap(due.start, any);
                        self.had += 1;
                    }
                    _ => {
                        self.wrong(Different, Some(line));
                        self.had += 1;
                    }
                }
            }
        }
    }

    fn end(&mut self) {
        self.number += 1;
        if self.had < self.due.len() {
            self.wrong(Missing, None);
        }
    }

    /// The first wrong line, or what the slip gives for it.
    fn verdict(&self) -> Verdict {
        let first = self.wrong.first();
        let given = match self.slip {
            Some(LastWrong) => self.wrong.last(),
            Some(Outranks(fault)) => self.wrong.iter().find(|wrong| wrong.1 == fault).or(first),
            _ => first,
        };
        given.map_or(Verdict::Accepted, |&(line, fault)| Verdict::Wrong(line, fault))
    }

    /// Notes a wrong line, or the end.
    fn wrong(&mut self, fault: Fault, line: Option<&[u8]>) {
        let here = |of: Fault, place: Place| of == fault && self.stands(place, line);
        let number = self.number;
        let named = match self.slip {
            Some(Passes(of, place)) if here(of, place) => return,
            Some(Calls(of, place, other)) if here(of, place) => (number, other),
            Some(Names(of, place, name)) if here(of, place) => (self.named(name), fault),
            Some(NumberIn(mask)) => (number & mask, fault),
            Some(QuestionsCounted) => (self.questions, fault),
            Some(AnswersCounted) => (self.answers, fault),
            _ => (number, fault),
        };
        self.wrong.push(named);
    }

    fn named(&self, name: Name) -> usize {
        match name {
            Name::LineBefore => self.number - 1,
            Name::LineBehind => self.number + 1,
            Name::Question => self.asked.unwrap_or(0),
            Name::Last => self.count,
        }
    }

    /// Whether the line, or the end, stands at such a place.
    fn stands(&self, place: Place, line: Option<&[u8]>) -> bool {
        let due = self.due.get(self.had);
        let text = line.unwrap_or_default();
        let refused = self.due.first().is_some_and(|due| due.starts_with(b"ff"));
        let answer = |line: &[u8]| line.len() >= 2 && sort(&line[..2]) == Sort::Answer;
        match place {
            Anywhere => true,
            FirstLine => self.number == 1,
            LastLine => self.number == self.count,
            WithoutByte10 => self.number == self.count && self.open,
            AtEnd => line.is_none(),
            BeforeEnd => line.is_some(),
            BeforeQuestions => self.asked.is_none(),
            BehindSilence => self.asked.is_some() && self.due.is_empty(),
            BehindAnswers => due.is_none() && !self.due.is_empty() && !refused,
            BehindRefusal => due.is_none() && refused,
            FirstDue => due.is_some() && self.had == 0,
            LaterDue => due.is_some() && self.had > 0,
            RefusalDue => due.is_some() && refused,
            Empty => line.is_some_and(<[u8]>::is_empty),
            OverLong => text.len() > MOST_DIGITS,
            OverLongAnswer => text.len() > MOST_DIGITS && answer(text),
            Longest => text.len() == MOST_DIGITS,
            PrefixAlone => text.len() == 2 && answer(text),
            OddDigits => text.len() % 2 == 1,
            NoDigits => !text.iter().all(u8::is_ascii_hexdigit),
            UpperCase => text.iter().any(u8::is_ascii_uppercase),
            Refusal => text.to_ascii_lowercase().starts_with(b"ff"),
        }
    }

    /// What the line is taken for.
    fn sort(&self, line: &[u8]) -> Sort {
        let begins = |prefix: &str| line.starts_with(prefix.as_bytes());
        let long = line.len() > MOST_DIGITS;
        match (self.slip, sort(line)) {
            (Some(PrefixTaken(prefix)), _) if begins(prefix) && !long => Sort::Answer,
            (Some(PrefixRefused(prefix)), _) if begins(prefix) => Sort::Neither,
            (Some(PrefixMasked(mask)), Sort::Neither) if !long && prefix_masked(line, mask) => {
                Sort::Answer
            }
            (Some(MostOfAnswer(most)), Sort::Answer) if line.len() > most => Sort::Neither,
            (Some(MostOfAnswer(most)), Sort::Neither) if long && line.len() <= most => {
                if sort(&line[..2]) == Sort::Answer {
                    Sort::Answer
                } else {
                    Sort::Neither
                }
            }
            (Some(slip), Sort::Question) if slip.refuses(line) => Sort::Neither,
            (_, right) => right,
        }
    }

    /// The answers that are due for a question.
    fn due_for(&mut self, question: &[u8]) -> Vec<Vec<u8>> {
        let before = self.definition.device.clone();
        match self.slip {
            Some(FreshEachQuestion) => self.definition = Log::default(),
            Some(ExecutedTwice) => drop(answers(&mut self.definition, question)),
            _ => {}
        }
        let mut due = answers(&mut self.definition, question);
        let refused = due.first().is_some_and(|due| due.starts_with(b"ff"));
        match self.slip {
            Some(FreshAfterRefusal) if refused => self.definition = Log::default(),
            Some(SilentNotExecuted) if due.is_empty() => self.definition.device = before,
            Some(NothingDueToRefused(number)) if refused && due[0][3] == number => due.clear(),
            Some(DueToSilent(line)) if due.is_empty() => due.push(line.into()),
            Some(OnlyFirstDue) => due.truncate(1),
            Some(OnlyLastDue) => drop(due.drain(..due.len().saturating_sub(1))),
            Some(DueReversed) => due.reverse(),
            Some(DueSorted) => due.sort(),
            Some(DueJoined) if due.len() > 1 => due = vec![due.concat()],
            _ => {}
        }
        due
    }

    /// Whether the line passes for this one of the answers due.
    fn same(&self, line: &[u8], due: usize) -> bool {
        let later = due > 0;
        let due = &self.due[due];
        match self.slip {
            Some(FirstCompared) if later => true,
            Some(FirstNotCompared) if !later => true,
            Some(slip) => slip.same(line, due),
            None => same(line, due),
        }
    }
}

impl CheckSlip {
    /// Whether this question is taken for none.
    fn refuses(self, question: &[u8]) -> bool {
        match self {
            MostOfQuestion(most) => question.len() > most,
            UpperQuestionRefused => question.iter().any(u8::is_ascii_uppercase),
            LowerQuestionRefused => question.iter().any(u8::is_ascii_lowercase),
            QuestionRefused(prefix) => question.starts_with(prefix.as_bytes()),
            ShortCommandRefused => question.starts_with(b"00") && question.len() < 26,
            _ => false,
        }
    }

    /// Whether a line passes for an answer, which is in lower case.
    fn same(self, line: &[u8], due: &[u8]) -> bool {
        let cut = |all: &[u8], end: usize| all[..end.min(all.len())].to_vec();
        match self {
            CaseMatters => line == due,
            CaseMattersBehind(first) if due[0] == first => line == due,
            CaseMattersOf(digit) => same(line, due) && !line.contains(&digit),
            MixedCaseDiffers => line == due || line == due.to_ascii_uppercase(),
            ComparedUpTo(end) => same(&cut(line, end), &cut(due, end)),
            ComparedUpToNul => {
                let end = line.iter().position(|&byte| byte == 0).unwrap_or(usize::MAX);
                same(&cut(line, end), &cut(due, end))
            }
            OddDigitIgnored => same(&cut(line, line.len() / 2 * 2), due),
            ShorterTaken => same(line, &cut(due, line.len())),
            LongerTaken => same(&cut(line, due.len()), due),
            _ => line.len() == due.len() && self.same_bytes(line, due),
        }
    }

    /// The same for a line of the same length, byte by byte.
    fn same_bytes(self, line: &[u8], due: &[u8]) -> bool {
        let checked = |byte: u8| char::from(byte).to_digit(16);
        let unchecked = |byte: u8| match byte {
            0..=b'9' => byte.wrapping_sub(b'0'),
            _ => (byte | 0x20).wrapping_sub(b'a').wrapping_add(10),
        };
        line.iter().zip(due).enumerate().all(|(at, (&byte, &due))| match self {
            Masked(mask) if byte & mask == due & mask => true,
            WildDigit(wild) if byte == wild => true,
            NoDigitIsZero => checked(byte).unwrap_or(0) == checked(due).expect("a digit"),
            DigitsNotChecked => unchecked(byte) == unchecked(due),
            ComparedFrom(start) if at < start => true,
            _ => byte.eq_ignore_ascii_case(&due),
        })
    }
}
