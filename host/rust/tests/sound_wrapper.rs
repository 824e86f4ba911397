//! The sound device's wrapper: what it hands to the archive, and what it makes of the result.

use virtio_video_decoder::ffi::{sound_control, SoundOutcome};
use virtio_video_decoder::sound::{wire, PcmOutput, State, Status, StreamConfig};
use State::{Fresh, Paused, Prepared, Running, Set, Stopped};
use Status::{BadMsg, NotSupp};

/// 2 to 5 channels, one format, two rates: no number could stand for another.
const CONFIG: StreamConfig = StreamConfig {
    channels_min: 2,
    channels_max: 5,
    formats: 1 << wire::PCM_FMT_FLOAT,
    rates: 1 << wire::PCM_RATE_16000 | 1 << wire::PCM_RATE_384000,
};

/// A message of a header alone.
fn plain(code: u32, stream: u32) -> Vec<u8> {
    [code, stream].iter().flat_map(|word| word.to_le_bytes()).collect()
}

fn set_format(channels: u16, format: u32, rate: u32) -> Vec<u8> {
    let mut message = plain(wire::R_PCM_SET_FORMAT, wire::PCM_T_OUTPUT);
    for field in [channels, format as u16, rate as u16, 0xffff] {
        message.extend(field.to_le_bytes());
    }
    message
}

/// A message that is good wherever its code is.
fn good(code: u32) -> Vec<u8> {
    match code {
        wire::R_PCM_SET_FORMAT => set_format(2, wire::PCM_FMT_FLOAT, wire::PCM_RATE_16000),
        _ => plain(code, wire::PCM_T_OUTPUT),
    }
}

/// The status that a message gets in a state, and the state after it.
fn told(state: State, message: &[u8]) -> (Status, State) {
    let mut output = PcmOutput::from_state(CONFIG, state);
    let answer = output.control(message);
    let status = Status::of(answer).unwrap();
    assert_eq!(answer, status.number().to_le_bytes());
    (status, output.state())
}

#[test]
fn a_pcm_stream_lives() {
    let mut output = PcmOutput::new(CONFIG);
    assert_eq!(output.state(), Fresh);
    for (code, state) in [
        (wire::R_PCM_SET_FORMAT, Set),
        (wire::R_PCM_PREPARE, Prepared),
        (wire::R_PCM_START, Running),
        (wire::R_PCM_PAUSE, Paused),
        (wire::R_PCM_UNPAUSE, Running),
        (wire::R_PCM_STOP, Stopped),
        (wire::R_PCM_PREPARE, Prepared),
    ] {
        assert_eq!(output.control(&good(code)), [0x00, 0x80, 0, 0]);
        assert_eq!(output.state(), state);
    }
    output.reset();
    assert_eq!(output.state(), Fresh);
}

#[test]
fn each_state_takes_its_requests() {
    let taken = [
        (Fresh, vec![(1, Set)]),
        (Set, vec![(1, Set), (2, Prepared)]),
        (Prepared, vec![(1, Set), (3, Running)]),
        (Running, vec![(4, Stopped), (5, Paused)]),
        (Paused, vec![(4, Stopped), (6, Running)]),
        (Stopped, vec![(1, Set), (2, Prepared)]),
    ];
    for (state, taken) in taken {
        for code in 1..=6 {
            let expected = match taken.iter().find(|(c, _)| *c == code) {
                Some((_, next)) => (Status::Ok, *next),
                None => (BadMsg, state),
            };
            assert_eq!(told(state, &good(code)), expected, "{state:?}, code {code}");
        }
    }
}

#[test]
fn the_configured_numbers_are_handed_on() {
    let (format, rate) = (wire::PCM_FMT_FLOAT, wire::PCM_RATE_384000);
    for (channels, format, rate, status) in [
        (1, format, rate, BadMsg),
        (2, format, rate, Status::Ok),
        (5, format, rate, Status::Ok),
        (6, format, rate, BadMsg),
        (2, wire::PCM_FMT_U16, rate, NotSupp),
        (2, format, wire::PCM_RATE_44100, NotSupp),
    ] {
        assert_eq!(told(Fresh, &set_format(channels, format, rate)).0, status);
    }
}

#[test]
fn a_failing_message_changes_nothing() {
    let mut long = good(wire::R_PCM_SET_FORMAT);
    long.push(0);
    let other_rate = set_format(2, wire::PCM_FMT_FLOAT, wire::PCM_RATE_8000);
    for (message, status, states) in [
        (vec![], BadMsg, &State::ALL[..]),
        (plain(wire::R_PCM_CHMAP_INFO, 0)[..7].to_vec(), BadMsg, &State::ALL),
        (plain(7, wire::PCM_T_OUTPUT), BadMsg, &State::ALL),
        (long, BadMsg, &State::ALL),
        (plain(wire::R_PCM_PREPARE, 2), BadMsg, &State::ALL),
        (plain(wire::R_PCM_PREPARE, wire::PCM_T_INPUT), NotSupp, &State::ALL),
        (other_rate, NotSupp, &[Fresh, Set, Prepared, Stopped]),
    ] {
        for &state in states {
            assert_eq!(told(state, &message), (status, state), "{message:?}");
        }
    }
}

#[test]
fn no_channel_map_is_given() {
    let mut expected = [0; wire::ANSWER_ROOM];
    expected[..4].copy_from_slice(&wire::S_NOT_SUPP.to_le_bytes());
    for state in State::ALL {
        let mut output = PcmOutput::from_state(CONFIG, state);
        for stream in [wire::PCM_T_OUTPUT, wire::PCM_T_INPUT, 2] {
            let answer = output.control(&plain(wire::R_PCM_CHMAP_INFO, stream));
            assert_eq!(answer, expected);
            assert_eq!(Status::of(answer), Some(NotSupp));
            assert_eq!(output.state(), state);
        }
        // The next answer is as short as ever.
        assert_eq!(output.control(&[]), [0x01, 0x80, 0, 0]);
    }
}

#[test]
fn a_state_is_the_device() {
    for state in State::ALL {
        let output = PcmOutput::from_state(CONFIG, state);
        let saved = output.state().number();
        let mut restored = PcmOutput::from_state(CONFIG, State::from_number(saved).unwrap());
        let mut second = output.clone();
        for code in 1..=6 {
            let message = good(code);
            assert_eq!(restored.control(&message), second.control(&message));
            assert_eq!(restored.state(), second.state());
        }
        assert_eq!(output.state(), state);
    }
}

#[test]
fn slices_of_any_length_are_lent() {
    let control = |state, answer: &mut [u8]| sound_control(state, 1, 1, 1, 1, &[], answer);
    let refused = |refusal, state| SoundOutcome { refusal, state, written: 0 };
    let mut room = vec![0xaa; wire::ANSWER_ROOM + 1];

    assert_eq!(control(6, &mut []), refused(3, 6));
    assert_eq!(control(0, &mut room[..wire::ANSWER_ROOM - 1]), refused(3, 0));
    assert_eq!(control(6, &mut room[..wire::ANSWER_ROOM]), refused(2, 6));
    assert_eq!(control(u32::MAX, &mut room), refused(2, u32::MAX));
    assert_eq!(room, vec![0xaa; wire::ANSWER_ROOM + 1]);

    let answered = SoundOutcome { refusal: 0, state: 5, written: 4 };
    assert_eq!(control(5, &mut room), answered);
    assert_eq!(room[..4], [0x01, 0x80, 0, 0]);
    assert!(room[4..].iter().all(|&byte| byte == 0xaa));
}

#[test]
fn states_and_statuses_have_numbers() {
    assert_eq!(State::ALL.map(State::number), [0, 1, 2, 3, 4, 5]);
    assert_eq!(Status::ALL.map(Status::number), [0x8000, 0x8001, 0x8002]);
    for state in State::ALL {
        assert_eq!(State::from_number(state.number()), Some(state));
    }
    for status in Status::ALL {
        assert_eq!(Status::from_number(status.number()), Some(status));
    }
    assert_eq!(State::from_number(6), None);
    assert_eq!(Status::from_number(wire::S_IO_ERR), None);
    assert_eq!(Status::of(&[0x00, 0x80, 0]), None);
    assert_eq!(Status::of(&[0x00, 0x80, 0, 1]), None);
}

#[test]
fn devices_may_cross_threads() {
    fn check<T: Send + Sync>(_: &T) {}
    let mut output = PcmOutput::from_state(CONFIG, Running);
    check(&output);
    let handle = std::thread::spawn(move || {
        output.control(&good(wire::R_PCM_PAUSE));
        output.state()
    });
    assert_eq!(handle.join().unwrap(), Paused);
}
