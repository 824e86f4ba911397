//! The guest's commands in words.

use crate::text::{self, Fields};
use virtio_video_decoder::wire;
use Length::{Any, AtLeast, Exactly};

/// How many bytes a command has.
enum Length {
    Any,
    Exactly(usize),
    AtLeast(usize),
}

/// A command of the draft: its number and name, its length, and what is said of its fields.
struct Kind(u32, &'static str, Length, fn(Fields<'_>) -> String);

const KINDS: [Kind; 13] = [
    Kind(wire::CMD_QUERY_CAPABILITY, "QUERY_CAPABILITY", Any, nothing),
    Kind(wire::CMD_STREAM_CREATE, "STREAM_CREATE", Exactly(88), stream_create),
    Kind(wire::CMD_STREAM_DESTROY, "STREAM_DESTROY", Exactly(8), nothing),
    Kind(wire::CMD_STREAM_DRAIN, "STREAM_DRAIN", Exactly(8), nothing),
    Kind(wire::CMD_RESOURCE_CREATE, "RESOURCE_CREATE", AtLeast(88), resource_create),
    Kind(wire::CMD_RESOURCE_QUEUE, "RESOURCE_QUEUE", Exactly(64), resource_queue),
    Kind(wire::CMD_RESOURCE_DESTROY_ALL, "RESOURCE_DESTROY_ALL", Exactly(16), of_queue),
    Kind(wire::CMD_QUEUE_CLEAR, "QUEUE_CLEAR", Exactly(16), of_queue),
    Kind(wire::CMD_GET_PARAMS, "GET_PARAMS", Exactly(16), of_queue),
    Kind(wire::CMD_SET_PARAMS, "SET_PARAMS", Exactly(120), set_params),
    Kind(wire::CMD_QUERY_CONTROL, "QUERY_CONTROL", Exactly(16), control),
    Kind(wire::CMD_GET_CONTROL, "GET_CONTROL", Exactly(16), control),
    Kind(wire::CMD_SET_CONTROL, "SET_CONTROL", AtLeast(16), control),
];

/// The draft's name of a type, or the number.
pub fn name(number: u32) -> String {
    match KINDS.iter().find(|kind| kind.0 == number) {
        Some(Kind(_, name, ..)) => (*name).to_owned(),
        None => format!("unknown type {number:#06x}"),
    }
}

/// A command, any bytes: its name, its stream and its fields.
pub fn in_words(command: &[u8]) -> String {
    let fields = Fields(command);
    if command.len() < 8 {
        let length = text::count(command.len(), "byte");
        return format!("{length}, no whole header {}", text::digits(command))
            .trim_end()
            .to_owned();
    }
    let (number, stream) = (fields.word(0), fields.word(4));
    let Some(Kind(_, name, length, said)) = KINDS.iter().find(|kind| kind.0 == number) else {
        return format!("{}, stream {stream}{}", name(number), behind(fields, 8));
    };
    let due = match *length {
        Exactly(due) if command.len() != due => due.to_string(),
        AtLeast(least) if command.len() < least => format!("{least} or more"),
        _ => return format!("{name}, stream {stream}{}", said(fields)),
    };
    format!("{name}, stream {stream}, {} in place of {due}", text::count(command.len(), "byte"))
}

fn nothing(fields: Fields<'_>) -> String {
    behind(fields, 8)
}

/// Whatever stands from `at` on.
fn behind(fields: Fields<'_>, at: usize) -> String {
    let rest = fields.behind(at);
    if rest.is_empty() {
        return String::new();
    }
    format!(", then {}: {}", text::count(rest.len(), "byte"), text::digits(rest))
}

fn stream_create(fields: Fields<'_>) -> String {
    let memory = match (fields.word(8), fields.word(12)) {
        (wire::MEM_TYPE_GUEST_PAGES, wire::MEM_TYPE_GUEST_PAGES) => "guest pages".to_owned(),
        (input, output) => format!("memory types {input} and {output}"),
    };
    let format = text::format_name(fields.word(16));
    format!(": {format}, {memory}, {}", tag(fields.behind(24)))
}

/// The tag up to its NUL.
fn tag(bytes: &[u8]) -> String {
    let Some(end) = bytes.iter().position(|&byte| byte == 0) else {
        return format!("tag without a NUL \"{}\"", bytes.escape_ascii());
    };
    match std::str::from_utf8(&bytes[..end]) {
        Ok("") => "no tag".to_owned(),
        Ok(tag) => format!("tag {tag:?}"),
        Err(_) => format!("tag that is not UTF-8 \"{}\"", bytes[..end].escape_ascii()),
    }
}

fn resource_create(fields: Fields<'_>) -> String {
    let resource = text::resource(fields.word(8), fields.word(12));
    let layout = match fields.word(16) {
        wire::PLANES_LAYOUT_SINGLE_BUFFER => "SINGLE_BUFFER".to_owned(),
        wire::PLANES_LAYOUT_PER_PLANE => "PER_PLANE".to_owned(),
        other => format!("layout {other:#x}"),
    };
    let planes = fields.word(20) as usize;
    // A bad count names planes that there are not.
    let there = planes.min(wire::MAX_PLANES);
    let (offsets, counts) = (fields.words(24, there), fields.words(56, there));
    let planes = text::count(planes, "plane");
    let entries = entries(fields.behind(88));
    format!(": {resource}, {layout}, {planes} (offsets {offsets}, entries {counts}): {entries}")
}

/// The memory entries of a resource, of many the first.
fn entries(bytes: &[u8]) -> String {
    const SHOWN: usize = 4;
    let entries = bytes.chunks_exact(16);
    let (all, rest) = (entries.len(), entries.remainder().len());
    let entry = |bytes| format!("{} bytes at {:#x}", Fields(bytes).word(8), Fields(bytes).long(0));
    let mut words: Vec<String> = entries.take(SHOWN).map(entry).collect();
    if all > SHOWN {
        words.push(format!("{} more", all - SHOWN));
    }
    if rest > 0 {
        words.push(text::count(rest, "byte") + " of no whole entry");
    }
    if words.is_empty() {
        return "no entry".to_owned();
    }
    words.join(", ")
}

fn resource_queue(fields: Fields<'_>) -> String {
    let resource = text::resource(fields.word(8), fields.word(12));
    let sizes = match fields.word(24) as usize {
        0 => "no sizes".to_owned(),
        count if count > wire::MAX_PLANES => format!("{count} sizes, too many"),
        count => format!("sizes {}", fields.words(28, count)),
    };
    format!(": {resource}, timestamp {}, {sizes}", fields.long(16))
}

fn of_queue(fields: Fields<'_>) -> String {
    format!(": {}", text::queue(fields.word(8)))
}

fn set_params(fields: Fields<'_>) -> String {
    let (queue, format) = (text::queue(fields.word(8)), text::format_name(fields.word(12)));
    let (width, height, rate) = (fields.word(16), fields.word(20), fields.word(48));
    format!(": {queue}, {format}, {width} by {height}, rate {rate}")
}

fn control(fields: Fields<'_>) -> String {
    let control = match fields.word(8) {
        1 => "BITRATE".to_owned(),
        2 => "PROFILE".to_owned(),
        3 => "LEVEL".to_owned(),
        other => format!("control {other:#x}"),
    };
    format!(": {control}{}", behind(fields, 16))
}
