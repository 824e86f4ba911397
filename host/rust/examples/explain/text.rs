//! Fields and bytes in words.

use virtio_video_decoder::log::MAX_LINE;
use virtio_video_decoder::wire;

/// Bytes in which fields are looked up. A field that they do not reach to is 0, so that no length can
/// do harm; the commands look at the length first.
#[derive(Clone, Copy)]
pub struct Fields<'a>(pub &'a [u8]);

impl<'a> Fields<'a> {
    /// The little-endian number of 4 bytes at `at`.
    pub fn word(self, at: usize) -> u32 {
        let bytes = self.0.get(at..).and_then(|rest| rest.first_chunk());
        bytes.map_or(0, |bytes| u32::from_le_bytes(*bytes))
    }

    /// The little-endian number of 8 bytes at `at`.
    pub fn long(self, at: usize) -> u64 {
        u64::from(self.word(at)) | u64::from(self.word(at + 4)) << 32
    }

    /// So many numbers of 4 bytes from `at` on, with blanks between.
    pub fn words(self, at: usize, count: usize) -> String {
        let words: Vec<String> = (0..count).map(|k| self.word(at + 4 * k).to_string()).collect();
        words.join(" ")
    }

    /// What stands from `at` on.
    pub fn behind(self, at: usize) -> &'a [u8] {
        self.0.get(at..).unwrap_or_default()
    }
}

/// Which queue.
pub fn queue(queue_type: u32) -> String {
    match queue_type {
        wire::QUEUE_TYPE_INPUT => "input".to_owned(),
        wire::QUEUE_TYPE_OUTPUT => "output".to_owned(),
        other => format!("queue type {other:#x}"),
    }
}

/// A resource by its queue and number.
pub fn resource(queue_type: u32, number: u32) -> String {
    match queue_type {
        wire::QUEUE_TYPE_INPUT | wire::QUEUE_TYPE_OUTPUT => {
            format!("{} {number}", queue(queue_type))
        }
        _ => format!("resource {number} of {}", queue(queue_type)),
    }
}

/// A format by the draft's name.
pub fn format_name(format: u32) -> String {
    let name = match format {
        wire::FORMAT_NV12 => "NV12",
        wire::FORMAT_MPEG2 => "MPEG2",
        wire::FORMAT_MPEG4 => "MPEG4",
        wire::FORMAT_H264 => "H264",
        wire::FORMAT_HEVC => "HEVC",
        wire::FORMAT_VP8 => "VP8",
        wire::FORMAT_VP9 => "VP9",
        _ => return format!("format {format:#x}"),
    };
    name.to_owned()
}

/// What is said of a buffer's flags, to follow other words; nothing of none.
pub fn flags(flags: u32) -> String {
    const BOTH: u32 = wire::BUFFER_FLAG_ERR | wire::BUFFER_FLAG_EOS;
    match flags {
        0 => String::new(),
        wire::BUFFER_FLAG_ERR => ", ERR".to_owned(),
        wire::BUFFER_FLAG_EOS => ", EOS".to_owned(),
        BOTH => ", ERR and EOS".to_owned(),
        other => format!(", flags {other:#x}"),
    }
}

/// So many things, "1 byte" or "2 bytes".
pub fn count(number: usize, thing: &str) -> String {
    format!("{number} {thing}{}", if number == 1 { "" } else { "s" })
}

/// Bytes in hexadecimal, the middle of many left out.
pub fn digits(bytes: &[u8]) -> String {
    let all = |bytes: &[u8]| bytes.iter().map(|byte| format!("{byte:02x}")).collect::<String>();
    shortened(bytes, all)
}

/// A line as it is, what is not printable escaped and the middle of many bytes left out.
pub fn escaped(line: &[u8]) -> String {
    shortened(line, |bytes| bytes.escape_ascii().to_string())
}

fn shortened(bytes: &[u8], show: impl Fn(&[u8]) -> String) -> String {
    const MOST: usize = 40;
    const HEAD: usize = 24;
    const TAIL: usize = 8;
    if bytes.len() <= MOST {
        return show(bytes);
    }
    format!("{} .. {}", show(&bytes[..HEAD]), show(&bytes[bytes.len() - TAIL..]))
}

/// Why a line is neither a frame nor an answer.
pub fn why_neither(line: &[u8]) -> String {
    if line.is_empty() {
        return "an empty line".to_owned();
    }
    if line.len() > MAX_LINE {
        return format!("{}, over the most of {MAX_LINE}", count(line.len(), "byte"));
    }
    if let Some(at) = line.iter().position(|byte| !byte.is_ascii_hexdigit()) {
        let other = &line[at..at + 1];
        return format!("byte {} is no digit: '{}'", at + 1, other.escape_ascii());
    }
    if line.len() % 2 == 1 {
        return count(line.len(), "digit") + ", an odd number";
    }
    match &line[..2] {
        b"00" => count(line.len() / 2, "byte") + " of 00, under the least of 5",
        b"01" => count(line.len() / 2, "byte") + " of 01, which has 25",
        b"02" => count(line.len() / 2, "byte") + " of 02, which has 5",
        start => format!("its first byte is {}", start.escape_ascii()),
    }
}
