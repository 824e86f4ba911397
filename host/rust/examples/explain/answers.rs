//! Answers in words, those of the core and those that another device gave.

use crate::text::{self, Fields};
use virtio_video_decoder::log::{AnswerLine, Frame};
use virtio_video_decoder::{wire, Params, Refusal, Response};

/// An answer to this question. `to` is what waited for it, where that is known.
pub fn in_words(answer: &AnswerLine, question: Option<&Frame>, to: Option<&str>) -> String {
    match answer {
        AnswerLine::Response { ticket, response } => {
            let to = to.map(|to| format!(", {to}")).unwrap_or_default();
            format!("to ticket {ticket}{to}: {}", response_in_words(response, question))
        }
        AnswerLine::Refusal(number) => {
            format!("refused, {number}: {}", refusal_in_words(*number, question))
        }
    }
}

fn response_in_words(bytes: &[u8], question: Option<&Frame>) -> String {
    match Response::from_bytes(bytes) {
        Some(Response::Done { stream }) => format!("done, stream {stream}"),
        Some(Response::Buffer { stream, timestamp, flags }) => {
            let flags = text::flags(flags);
            let size = match Fields(bytes).word(20) {
                0 => String::new(),
                size => format!(", size {size}"),
            };
            format!("buffer, stream {stream}, timestamp {timestamp}{flags}{size}")
        }
        Some(Response::Params { stream, params }) => {
            format!("parameters, stream {stream}: {}", params_in_words(params, Fields(bytes)))
        }
        Some(Response::Error { stream, code }) => {
            let meaning = error_in_words(code, command_type(question));
            format!("error {code:#06x}, stream {stream}: {meaning}")
        }
        None => other_response(bytes),
    }
}

/// The parameters, and what the device adds to those that a guest sets.
fn params_in_words(params: Params, bytes: Fields<'_>) -> String {
    let Params { queue_type, format, width, height, rate } = params;
    let (queue, format) = (text::queue(queue_type), text::format_name(format));
    let buffers = format!("buffers {} to {}", bytes.word(24), bytes.word(28));
    let crop = bytes.words(32, 4);
    let planes = bytes.word(52) as usize;
    let sizes: Vec<String> = (0..planes.min(wire::MAX_PLANES))
        .map(|k| format!("{} with stride {}", bytes.word(56 + 8 * k), bytes.word(60 + 8 * k)))
        .collect();
    let (planes, sizes) = (text::count(planes, "plane"), sizes.join(", "));
    format!("{queue}, {format}, {width} by {height}, rate {rate}, {buffers}, crop {crop}, {planes}: {sizes}")
}

/// A response that the core never gives.
fn other_response(bytes: &[u8]) -> String {
    let (length, digits) = (text::count(bytes.len(), "byte"), text::digits(bytes));
    if bytes.len() < 8 {
        return format!("no whole response, {length}: {digits}");
    }
    let (kind, stream) = (Fields(bytes).word(0), Fields(bytes).word(4));
    format!("type {kind:#06x} in {length}, which the core does not give, stream {stream}: {digits}")
}

fn command_type(question: Option<&Frame>) -> Option<u32> {
    match question? {
        Frame::Command { command, .. } => Some(Fields(command).word(0)),
        Frame::Finish { .. } | Frame::Drained { .. } => None,
    }
}

/// What an error means, as an answer to a command of that type.
fn error_in_words(code: u32, command: Option<u32>) -> &'static str {
    use wire::*;
    match (code, command) {
        (RESP_ERR_INVALID_OPERATION, Some(CMD_STREAM_DRAIN)) => "a drain is pending already",
        (RESP_ERR_INVALID_OPERATION, Some(CMD_RESOURCE_QUEUE)) => {
            "it is Queued already, or an input while a drain is pending"
        }
        (RESP_ERR_INVALID_OPERATION, Some(CMD_RESOURCE_DESTROY_ALL | CMD_SET_PARAMS)) => {
            "a buffer of that queue is Queued"
        }
        (RESP_ERR_INVALID_OPERATION, _) => "no such command, or not now",
        (RESP_ERR_OUT_OF_MEMORY, Some(CMD_STREAM_CREATE)) => "no place for another stream",
        (RESP_ERR_OUT_OF_MEMORY, Some(CMD_RESOURCE_CREATE)) => "no place in that queue",
        (RESP_ERR_OUT_OF_MEMORY, _) => "no place",
        (RESP_ERR_INVALID_STREAM_ID, Some(CMD_STREAM_CREATE)) => {
            "the number is spent, or above 1023"
        }
        (RESP_ERR_INVALID_STREAM_ID, _) => "no such stream",
        (RESP_ERR_INVALID_RESOURCE_ID, Some(CMD_RESOURCE_CREATE)) => "that number is there already",
        (RESP_ERR_INVALID_RESOURCE_ID, _) => "no such resource",
        (RESP_ERR_INVALID_PARAMETER, _) => "a bad length or field",
        (RESP_ERR_UNSUPPORTED_CONTROL, _) => "no control is supported",
        _ => "an error without a name",
    }
}

/// What a refusal means, as an answer to this question; to none it is a line that is no frame.
fn refusal_in_words(number: u8, question: Option<&Frame>) -> String {
    const BOTH: u32 = wire::BUFFER_FLAG_ERR | wire::BUFFER_FLAG_EOS;
    let meaning = match (number, question) {
        (4, Some(Frame::Command { .. })) => "the command has no whole header of 8 bytes",
        (5, Some(Frame::Finish { flags, .. })) if flags & wire::BUFFER_FLAG_EOS == 0 => {
            "no such buffer is Queued"
        }
        (5, Some(Frame::Finish { .. })) => {
            "no such buffer is Queued, or it has EOS while an input is Queued"
        }
        (5, Some(Frame::Drained { .. })) => {
            "no such stream, no drain is pending, an input is Queued, or the stream has outputs"
        }
        (6, Some(Frame::Finish { flags, .. })) if *flags > BOTH => "flags other than ERR and EOS",
        (6, Some(Frame::Finish { .. })) => "EOS on an input, or with no drain pending",
        (7, _) => "the line is no frame",
        (4..=6, Some(_)) => "no refusal of such a step",
        _ => return Refusal::from_number(number.into()).map_or_else(unknown, |r| r.to_string()),
    };
    meaning.to_owned()
}

fn unknown() -> String {
    "no refusal has that number".to_owned()
}
