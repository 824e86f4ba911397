//! The C headers, and the constants and declarations in Rust, say the same.

use std::collections::HashMap;
use std::fmt::Debug;
use virtio_video_decoder::log::Fault;
use virtio_video_decoder::sound::State;
use virtio_video_decoder::Refusal;

fn text(file: &str) -> String {
    let path = format!("{}/../../include/{file}", env!("CARGO_MANIFEST_DIR"));
    std::fs::read_to_string(&path).expect(&path)
}

/// The numbers that a header gives to names: lines `#define NAME number` and `NAME = number,`.
fn header(file: &str) -> HashMap<String, u64> {
    text(file)
        .lines()
        .filter_map(|line| {
            let mut words = line.split_whitespace();
            let (name, value) = match words.next()? {
                "#define" => (words.next()?, words.next()?),
                name => (words.next() == Some("=")).then_some((name, words.next()?))?,
            };
            let digits = value.trim_end_matches(',');
            let number = match digits.strip_prefix("0x") {
                Some(hex) => u64::from_str_radix(hex, 16),
                None => digits.parse(),
            };
            Some((name.to_owned(), number.ok()?))
        })
        .collect()
}

const VIDEO: &str = "virtio_video_decoder.h";
const SOUND: &str = "virtio_sound_output.h";

fn video() -> HashMap<String, u64> {
    header(VIDEO)
}

fn sound() -> HashMap<String, u64> {
    header(SOUND)
}

/// Names of constants, each with its number in the module `wire` that is in use there.
macro_rules! numbers {
    ($($name:ident)*) => {
        [$((stringify!($name), wire::$name as u64)),*]
    };
}

/// The header has these numbers under the same names with its prefix. The source of `wire` has no
/// constant that was left out, but for the device number.
fn constants_agree(
    header: &HashMap<String, u64>,
    prefix: &str,
    numbers: &[(&str, u64)],
    source: &str,
) {
    for (name, number) in numbers {
        let name = format!("{prefix}{name}");
        assert_eq!(header.get(&name), Some(number), "{name}");
    }
    assert_eq!(source.matches("pub const ").count(), numbers.len() + 1);
}

/// The header's names with this prefix by rising number, in small letters and without underscores.
fn named(header: &HashMap<String, u64>, prefix: &str) -> Vec<(u64, String)> {
    let mut names: Vec<(u64, String)> = header
        .iter()
        .filter_map(|(name, number)| {
            let name = name.strip_prefix(prefix)?;
            Some((*number, name.replace('_', "").to_lowercase()))
        })
        .collect();
    names.sort();
    names
}

/// The same of a variant.
fn variant(number: u32, name: impl Debug) -> (u64, String) {
    (number.into(), format!("{name:?}").to_lowercase())
}

#[test]
fn video_constants_agree() {
    use virtio_video_decoder::wire;
    let numbers = numbers! {
        F_RESOURCE_GUEST_PAGES F_RESOURCE_NON_CONTIG
        CMD_QUERY_CAPABILITY CMD_STREAM_CREATE CMD_STREAM_DESTROY CMD_STREAM_DRAIN
        CMD_RESOURCE_CREATE CMD_RESOURCE_QUEUE CMD_RESOURCE_DESTROY_ALL CMD_QUEUE_CLEAR
        CMD_GET_PARAMS CMD_SET_PARAMS CMD_QUERY_CONTROL CMD_GET_CONTROL CMD_SET_CONTROL
        RESP_OK_NODATA RESP_OK_RESOURCE_QUEUE RESP_OK_GET_PARAMS
        RESP_ERR_INVALID_OPERATION RESP_ERR_OUT_OF_MEMORY RESP_ERR_INVALID_STREAM_ID
        RESP_ERR_INVALID_RESOURCE_ID RESP_ERR_INVALID_PARAMETER RESP_ERR_UNSUPPORTED_CONTROL
        QUEUE_TYPE_INPUT QUEUE_TYPE_OUTPUT MEM_TYPE_GUEST_PAGES
        PLANES_LAYOUT_SINGLE_BUFFER PLANES_LAYOUT_PER_PLANE
        FORMAT_NV12 FORMAT_MPEG2 FORMAT_MPEG4 FORMAT_H264 FORMAT_HEVC FORMAT_VP8 FORMAT_VP9
        BUFFER_FLAG_ERR BUFFER_FLAG_EOS
        MAX_STREAMS MAX_RESOURCES MAX_ENTRIES MAX_PLANES MAX_RESP_LENGTH MAX_CMD_LENGTH
        STREAM_NUMBERS TABLE_WORDS ANSWER_ROOM
    };
    constants_agree(&video(), "VIRTIO_VIDEO_", &numbers, include_str!("../src/wire.rs"));
    assert_eq!(video()["VIRTIO_ID_VIDEO_DECODER"], wire::ID_VIDEO_DECODER.into());
}

#[test]
fn sound_constants_agree() {
    use virtio_video_decoder::sound::wire;
    let numbers = numbers! {
        F_PCM_OUTPUT F_PCM_INPUT
        PCM_FMT_S8 PCM_FMT_U8 PCM_FMT_S16 PCM_FMT_U16 PCM_FMT_S32 PCM_FMT_U32
        PCM_FMT_FLOAT PCM_FMT_FLOAT64
        PCM_RATE_5512 PCM_RATE_8000 PCM_RATE_11025 PCM_RATE_16000 PCM_RATE_22050
        PCM_RATE_32000 PCM_RATE_44100 PCM_RATE_48000 PCM_RATE_64000 PCM_RATE_88200
        PCM_RATE_96000 PCM_RATE_176400 PCM_RATE_192000 PCM_RATE_384000
        R_PCM_CHMAP_INFO R_PCM_SET_FORMAT R_PCM_PREPARE R_PCM_START R_PCM_STOP
        R_PCM_PAUSE R_PCM_UNPAUSE
        S_OK S_BAD_MSG S_NOT_SUPP S_IO_ERR
        PCM_T_OUTPUT PCM_T_INPUT PCM_CH_MAX ANSWER_ROOM
    };
    constants_agree(&sound(), "VIRTIO_SND_", &numbers, include_str!("../src/sound/wire.rs"));
    assert_eq!(sound()["VIRTIO_ID_SOUND"], wire::ID_SOUND.into());
}

#[test]
fn refusals_agree() {
    let numbers = named(&video(), "VIRTIO_VIDEO_REFUSAL_");
    assert_eq!(numbers[0], (0, "none".to_owned()));
    assert_eq!(numbers[1..], Refusal::ALL.map(|r| variant(r.number(), r)));
}

#[test]
fn verdicts_agree() {
    let numbers = named(&video(), "VIRTIO_VIDEO_VERDICT_");
    assert_eq!(numbers[0], (0, "accepted".to_owned()));
    assert_eq!(numbers[1..], Fault::ALL.map(|f| variant(f.number(), f)));
}

#[test]
fn sound_states_agree() {
    let numbers = named(&sound(), "VIRTIO_SND_PCM_STATE_");
    assert_eq!(numbers, State::ALL.map(|s| variant(s.number(), s)));
}

/// The package has no names for these, since a `PcmOutput` meets neither.
#[test]
fn sound_refusals_are_those_of_the_call() {
    let numbers = named(&sound(), "VIRTIO_SND_REFUSAL_");
    let expected = [(0, "none"), (2, "invalidstate"), (3, "shortroom")];
    assert_eq!(numbers, expected.map(|(number, name)| (number, name.to_owned())));
}

/// The results of calls, by their names in C and in Rust.
const RESULTS: [(&str, &str); 4] = [
    ("virtio_video_outcome", "Outcome"),
    ("virtio_video_pending", "Pending"),
    ("virtio_video_verdict", "Verdict"),
    ("virtio_snd_outcome", "SoundOutcome"),
];

/// Other types, in the same way.
const NUMBERS: [(&str, &str); 5] = [
    ("uint8_t", "u8"),
    ("uint16_t", "u16"),
    ("uint32_t", "u32"),
    ("uint64_t", "u64"),
    ("size_t", "usize"),
];

/// A name and its type in Rust: a field of a struct, or a parameter of a function.
type Named = (String, String);

/// The code without its comments, each of which stands between these two, and with one blank wherever
/// there are any.
fn code(text: &str, comment: (&str, &str)) -> String {
    let (first, behind) = text.split_once(comment.0).expect(comment.0);
    let rest = behind.split(comment.0).map(|piece| piece.split_once(comment.1).expect(piece).1);
    let code: String = [first].into_iter().chain(rest).collect();
    code.split_whitespace().collect::<Vec<_>>().join(" ")
}

fn in_c() -> String {
    [VIDEO, SOUND].map(|file| code(&text(file), ("/*", "*/"))).join(" ")
}

fn in_rust() -> String {
    code(include_str!("../src/ffi.rs"), ("//", "\n"))
}

/// What stands between these two, the first time that they are there.
fn between<'a>(code: &'a str, start: &str, end: &str) -> &'a str {
    code.split_once(start).expect(start).1.split_once(end).expect(end).0
}

/// A type of C as one of Rust.
fn type_of_c(c_type: &str) -> String {
    if let Some(to) = c_type.strip_suffix(" *") {
        return match to.strip_prefix("const ") {
            Some(to) => format!("*const {}", type_of_c(to)),
            None => format!("*mut {}", type_of_c(to)),
        };
    }
    let (known, name) = match c_type.strip_prefix("struct ") {
        Some(name) => (&RESULTS[..], name),
        None => (&NUMBERS[..], c_type),
    };
    known.iter().find(|known| known.0 == name).expect(c_type).1.to_owned()
}

/// `type name` or `type *name`.
fn named_of_c(text: &str) -> Named {
    let at = text.rfind([' ', '*']).expect(text) + 1;
    (text[at..].to_owned(), type_of_c(text[..at].trim_end()))
}

/// `name: type`, perhaps public.
fn named_of_rust(text: &str) -> Named {
    let (name, kind) = text.trim_start_matches("pub ").split_once(": ").expect(text);
    (name.to_owned(), kind.to_owned())
}

fn each(list: &str, separator: char, named: fn(&str) -> Named) -> Vec<Named> {
    list.split(separator).map(str::trim).filter(|text| !text.is_empty()).map(named).collect()
}

#[test]
fn results_agree() {
    let (c, rust) = (in_c(), in_rust());
    let derived = "#[repr(C)] #[derive(Clone, Copy, Debug, PartialEq, Eq)] pub struct";
    for (name, rust_name) in RESULTS {
        let of_c = between(&c, &format!("struct {name} {{"), "}");
        let of_rust = between(&rust, &format!("{derived} {rust_name} {{"), "}");
        assert_eq!(each(of_c, ';', named_of_c), each(of_rust, ',', named_of_rust), "{name}");
    }
}

#[test]
fn functions_agree() {
    let of_c = |statement: &str| {
        let (head, parameters) = statement.strip_suffix(')')?.split_once('(')?;
        let (result, name) = head.trim_start().rsplit_once(' ')?;
        let declared = || (name.to_owned(), each(parameters, ',', named_of_c), type_of_c(result));
        name.starts_with("virtio_").then(declared)
    };
    let of_rust = |statement: &str| {
        let (name, rest) = statement.trim_start().strip_prefix("fn ")?.split_once('(')?;
        let (parameters, result) = rest.split_once(") -> ")?;
        Some((name.to_owned(), each(parameters, ',', named_of_rust), result.to_owned()))
    };
    let c: Vec<_> = in_c().split(';').filter_map(of_c).collect();
    let rust: Vec<_> =
        between(&in_rust(), "extern \"C\" {", "}").split(';').filter_map(of_rust).collect();
    assert_eq!(c, rust);
    assert_eq!(c.len(), 8);
}
