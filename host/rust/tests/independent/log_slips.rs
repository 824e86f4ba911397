//! Wrong variants of the log program, each with one slip around the right steps. The comparison has
//! to catch every one of them, else it is too weak.

use super::log::{
    bytes, digits, frame, Log, DRAINED_LENGTH, FINISH_LENGTH, LONGEST_COMMAND, MOST_DIGITS,
    SHORTEST_COMMAND,
};

#[derive(Clone, Copy, Debug, PartialEq, Eq)]
pub enum LogSlip {
    // Of reading a line.
    /// A frame of this first byte and length is taken, a byte added or dropped.
    LengthTaken(u8, usize),
    /// A command of 4,189 bytes is no frame.
    LongestRefused,
    /// A command of no bytes is no frame.
    ShortCommandRefused,
    /// This first byte stands for a command.
    FirstByteTaken(u8),
    /// Upper-case digits are none.
    UpperCaseRefused,
    /// Lower-case digits are none.
    LowerCaseRefused,
    /// This character is a digit.
    DigitTaken(u8),
    /// This character is passed over.
    PassedOver(u8),
    /// `0x` may stand in front.
    PrefixTaken,
    /// The eighth bit of a character is not looked at.
    HighBitIgnored,
    /// The last one of an odd number of digits is dropped.
    OddDigitDropped,
    /// A zero is added to an odd number of digits.
    OddDigitFilled,

    // Of lines.
    /// This byte ends a line too.
    AlsoEnds(u8),
    /// An empty line is passed over.
    EmptyLineSkipped,
    /// A log that ends in byte 10 has an empty line behind it.
    EmptyLastLineAnswered,
    /// A last line without byte 10 is not counted.
    LastLineDropped,
    /// A line ends where a read does.
    CutAtRead,
    /// What was read before of a line is forgotten at the next read.
    ForgottenAtRead,
    /// An over-long line is as many lines as buffers.
    OverLongInParts,
    /// Of an over-long line its head is taken.
    OverLongHead,
    /// Of an over-long line its tail is taken.
    OverLongTail,
    /// An over-long line is not answered.
    OverLongSilent,
    /// An over-long last line without byte 10 is not answered.
    OverLongEndSilent,

    // Of steps.
    /// A line that is no frame only for what stands at its end is executed all the same.
    RefusedLineExecutes,
    /// A line that is no frame makes the table fresh.
    RefusedLineFreshens,
    /// Each line has a fresh table.
    FreshEachLine,

    // Of writing.
    /// The byte count is shown.
    ByteCountPrinted,
    /// The ticket is not shown.
    TicketLeftOut,
    /// The ticket's bytes stand in the order of a written number.
    TicketTurned,
    /// Upper-case digits are written.
    UpperCaseWritten,
    /// Upper-case digits are written in a refusal.
    UpperCaseRefusal,
    /// A refusal number is one digit.
    RefusalOfOneDigit,
    /// A refusal number is 4 bytes.
    RefusalOfFourBytes,
    /// A refused line shows the last answers again.
    RefusedWritesRoom,
    /// A short command is refused with 7.
    ShortCommandIs7,
    /// Only the first answer of a step is shown.
    FirstAnswerOnly,
    /// The answers of a step stand in one line.
    AnswersJoined,
    /// A step without answers writes an empty line.
    EmptyLineForNothing,
    /// Lines end with bytes 13 and 10.
    CarriageReturnWritten,
    /// The last line has no byte 10.
    LastByte10Missing,
}

use LogSlip::*;

pub const LOG_SLIPS: &[LogSlip] = &[
    LengthTaken(0, SHORTEST_COMMAND - 1),
    LengthTaken(0, LONGEST_COMMAND + 1),
    LengthTaken(1, FINISH_LENGTH - 1),
    LengthTaken(1, FINISH_LENGTH + 1),
    LengthTaken(2, DRAINED_LENGTH - 1),
    LengthTaken(2, DRAINED_LENGTH + 1),
    LongestRefused,
    ShortCommandRefused,
    FirstByteTaken(3),
    FirstByteTaken(0x10),
    FirstByteTaken(0x80),
    FirstByteTaken(0xff),
    UpperCaseRefused,
    LowerCaseRefused,
    DigitTaken(b'/'),
    DigitTaken(b':'),
    DigitTaken(b'@'),
    DigitTaken(b'G'),
    DigitTaken(b'`'),
    DigitTaken(b'g'),
    PassedOver(b' '),
    PassedOver(b'\t'),
    PassedOver(b'\r'),
    PassedOver(0),
    PrefixTaken,
    HighBitIgnored,
    OddDigitDropped,
    OddDigitFilled,
    AlsoEnds(b'\r'),
    AlsoEnds(0),
    EmptyLineSkipped,
    EmptyLastLineAnswered,
    LastLineDropped,
    CutAtRead,
    ForgottenAtRead,
    OverLongInParts,
    OverLongHead,
    OverLongTail,
    OverLongSilent,
    OverLongEndSilent,
    RefusedLineExecutes,
    RefusedLineFreshens,
    FreshEachLine,
    ByteCountPrinted,
    TicketLeftOut,
    TicketTurned,
    UpperCaseWritten,
    UpperCaseRefusal,
    RefusalOfOneDigit,
    RefusalOfFourBytes,
    RefusedWritesRoom,
    ShortCommandIs7,
    FirstAnswerOnly,
    AnswersJoined,
    EmptyLineForNothing,
    CarriageReturnWritten,
    LastByte10Missing,
];

/// The log program with a slip, or with none.
#[derive(Default)]
pub struct WrongReader {
    slip: Option<LogSlip>,
    log: Log,
    line: Vec<u8>,
    /// What was last written for a line that was not refused.
    shown: Vec<u8>,
}

impl WrongReader {
    /// All that is written for a log read in these pieces.
    pub fn answers(slip: Option<LogSlip>, pieces: &[&[u8]]) -> Vec<u8> {
        let mut reader = WrongReader { slip, ..Default::default() };
        let mut written = Vec::new();
        for piece in pieces {
            reader.read(piece, &mut written);
        }
        reader.end(&mut written);
        if slip == Some(LastByte10Missing) {
            written.pop();
        }
        written
    }

    fn slips(&self, slip: LogSlip) -> bool {
        self.slip == Some(slip)
    }

    fn read(&mut self, piece: &[u8], written: &mut Vec<u8>) {
        if self.slips(ForgottenAtRead) {
            self.line.clear();
        }
        for &byte in piece {
            if byte == 10 || self.slips(AlsoEnds(byte)) {
                written.extend(self.line());
                continue;
            }
            if self.line.len() == MOST_DIGITS {
                match self.slip {
                    Some(OverLongInParts) => written.extend(self.line()),
                    Some(OverLongTail) => self.line.clear(),
                    Some(OverLongHead) => continue,
                    _ => {}
                }
            }
            self.line.push(byte);
        }
        if self.slips(CutAtRead) && !self.line.is_empty() {
            written.extend(self.line());
        }
    }

    fn end(&mut self, written: &mut Vec<u8>) {
        let silent = match self.slip {
            Some(LastLineDropped) => true,
            Some(EmptyLastLineAnswered) => false,
            Some(OverLongEndSilent) if self.line.len() > MOST_DIGITS => true,
            _ => self.line.is_empty(),
        };
        if !silent {
            written.extend(self.line());
        }
    }

    /// What is written for the line that was read.
    fn line(&mut self) -> Vec<u8> {
        let mut line = std::mem::take(&mut self.line);
        let Some(slip) = self.slip else { return self.log.line(&line) };
        if slip == EmptyLineSkipped && line.is_empty()
            || slip == OverLongSilent && line.len() > MOST_DIGITS
        {
            return Vec::new();
        }
        taken_for(slip, &mut line);
        match (slip, frame(&line)) {
            (FreshEachLine, _) | (RefusedLineFreshens, None) => self.log = Log::default(),
            (RefusedLineExecutes, None) => {
                let most = line.len().min(MOST_DIGITS);
                let head = (0..most).rev().map(|end| &line[..end]).take(3);
                if let Some(good) = head.into_iter().find(|head| frame(head).is_some()) {
                    self.log.line(good);
                }
            }
            _ => {}
        }
        let written = self.log.line(&line);
        let mut lines: Vec<Vec<u8>> =
            written.split_inclusive(|&byte| byte == 10).map(<[u8]>::to_vec).collect();
        if lines.is_empty() && slip == EmptyLineForNothing {
            lines.push(vec![10]);
        }
        let refused = written.starts_with(b"ff");
        if slip == RefusedWritesRoom && refused {
            lines.insert(0, self.shown.clone());
        }
        if !refused && !written.is_empty() {
            self.shown = written;
        }
        if slip == FirstAnswerOnly {
            lines.truncate(1);
        }
        for line in &mut lines {
            shown_as(slip, line);
        }
        if slip == AnswersJoined && lines.len() > 1 {
            let joined: Vec<u8> = lines.concat().into_iter().filter(|&byte| byte != 10).collect();
            return [&joined[..], b"\n"].concat();
        }
        lines.concat()
    }
}

/// Makes of a line what the slip takes it for.
fn taken_for(slip: LogSlip, line: &mut Vec<u8>) {
    let read = bytes(line);
    match (slip, read) {
        (LengthTaken(kind, length), Some(mut read))
            if read.first() == Some(&kind) && read.len() == length =>
        {
            let right = match kind {
                0 => length.clamp(SHORTEST_COMMAND, LONGEST_COMMAND),
                1 => FINISH_LENGTH,
                _ => DRAINED_LENGTH,
            };
            read.resize(right, 0);
            *line = digits(&read);
        }
        (LongestRefused, Some(read)) if read.len() == LONGEST_COMMAND => line.clear(),
        (ShortCommandRefused, Some(read)) if read.len() == SHORTEST_COMMAND && read[0] == 0 => {
            line.clear()
        }
        (FirstByteTaken(kind), Some(mut read)) if read.first() == Some(&kind) => {
            read[0] = 0;
            *line = digits(&read);
        }
        (UpperCaseRefused, _) if line.iter().any(u8::is_ascii_uppercase) => line.clear(),
        (LowerCaseRefused, _) if line.iter().any(u8::is_ascii_lowercase) => line.clear(),
        (DigitTaken(taken), _) => {
            for character in line.iter_mut().filter(|character| **character == taken) {
                *character = b'0';
            }
        }
        (PassedOver(over), _) => line.retain(|&character| character != over),
        (PrefixTaken, _) if line.starts_with(b"0x") => drop(line.drain(..2)),
        (HighBitIgnored, _) => line.iter_mut().for_each(|character| *character &= 0x7f),
        (OddDigitDropped, _) if line.len() % 2 == 1 => drop(line.pop()),
        (OddDigitFilled, _) if line.len() % 2 == 1 => line.push(b'0'),
        _ => {}
    }
}

/// Makes of a written line, with its byte 10, what the slip shows.
fn shown_as(slip: LogSlip, line: &mut Vec<u8>) {
    let refusal = line.starts_with(b"ff");
    match slip {
        ByteCountPrinted if line.starts_with(b"80") => {
            let count = (line.len() - 11) / 2;
            line.splice(10..10, digits(&(count as u32).to_le_bytes()));
        }
        TicketLeftOut if line.starts_with(b"80") => drop(line.drain(2..10)),
        TicketTurned if line.starts_with(b"80") => {
            let turned: Vec<u8> = line[2..10].rchunks(2).flatten().copied().collect();
            line[2..10].copy_from_slice(&turned);
        }
        UpperCaseWritten if !refusal => line.make_ascii_uppercase(),
        UpperCaseRefusal if refusal => line.make_ascii_uppercase(),
        RefusalOfOneDigit if refusal => drop(line.remove(2)),
        RefusalOfFourBytes if refusal => drop(line.splice(4..4, *b"000000")),
        ShortCommandIs7 if line == b"ff04\n" => line[3] = b'7',
        CarriageReturnWritten => line.insert(line.len() - 1, 13),
        _ => {}
    }
}
