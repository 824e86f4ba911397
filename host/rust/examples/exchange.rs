//! An exchange between a guest, the core and a back end, as a host sees it.
//!
//!     cargo run --example exchange

#[allow(dead_code)]
mod guest;

use virtio_video_decoder::{wire, Answers, Decoder, Finish, QueueType, Refusal, Response};
use QueueType::{Input, Output};

/// A host that numbers the guest's commands, and shows what goes to and fro.
struct Host {
    decoder: Decoder,
    ticket: u32,
}

impl Host {
    fn command(&mut self, says: &str, frame: &[u8]) {
        self.ticket += 1;
        println!("guest, ticket {}: {says}", self.ticket);
        show(self.decoder.command(self.ticket, frame));
    }

    fn finish(&mut self, queue: QueueType, resource: u32, flags: u32, timestamp: u64) {
        let of = match queue {
            Input => "input",
            Output => "output",
        };
        println!("back end: {of} {resource} is done{}", flag_names(flags));
        show(self.decoder.finish(Finish { stream: 7, queue, resource, flags, timestamp }));
    }

    fn drained(&mut self) {
        println!("back end: stream 7 is drained");
        show(self.decoder.drained(7));
    }
}

fn show(result: Result<Answers<'_>, Refusal>) {
    match result {
        Err(refusal) => println!("    refused: {refusal}"),
        Ok(answers) => {
            if answers.as_bytes().is_empty() {
                println!("    no answer yet");
            }
            for answer in answers {
                println!("    to ticket {}: {}", answer.ticket, text(answer.response));
            }
        }
    }
}

fn text(response: &[u8]) -> String {
    match Response::from_bytes(response) {
        Some(Response::Done { stream }) => format!("done, stream {stream}"),
        Some(Response::Buffer { stream, timestamp, flags }) => {
            format!("buffer of stream {stream}, timestamp {timestamp}{}", flag_names(flags))
        }
        Some(Response::Params { stream, params }) => format!(
            "parameters of stream {stream}: format {:#x}, {} by {}",
            params.format, params.width, params.height
        ),
        Some(Response::Error { stream, code }) => format!("error {code:#06x}, stream {stream}"),
        None => format!("{response:02x?}"),
    }
}

fn flag_names(flags: u32) -> &'static str {
    match flags {
        0 => "",
        wire::BUFFER_FLAG_ERR => ", ERR",
        wire::BUFFER_FLAG_EOS => ", EOS",
        _ => ", ERR and EOS",
    }
}

fn main() {
    let mut host = Host { decoder: Decoder::new(), ticket: 0 };
    let h264 = wire::FORMAT_H264;

    host.command("create stream 7", &guest::create(7, h264, "lobby camera"));
    host.command("create stream 7 again", &guest::create(7, h264, ""));
    host.command(
        "set the output to 1280 by 720",
        &guest::set_params(7, Output, wire::FORMAT_NV12, (1280, 720)),
    );
    host.command("get the output's parameters", &guest::get_params(7, Output));
    host.command("import input 1", &guest::import(7, Input, 1, 64));
    host.command("import input 2", &guest::import(7, Input, 2, 64));
    host.command("import output 1", &guest::import(7, Output, 1, 256));

    host.command("queue input 1", &guest::queue(7, Input, 1, 1000));
    host.command("queue output 1", &guest::queue(7, Output, 1, 0));
    host.finish(Input, 1, 0, 0);
    host.finish(Input, 1, 0, 0);
    host.finish(Output, 1, 0, 1000);

    host.command("queue input 2", &guest::queue(7, Input, 2, 1033));
    host.command("queue output 1", &guest::queue(7, Output, 1, 0));
    host.command("drain", &guest::drain(7));
    host.command("queue input 1, too late", &guest::queue(7, Input, 1, 1066));
    // Too early: an input is Queued.
    host.finish(Output, 1, wire::BUFFER_FLAG_EOS, 1033);
    host.finish(Input, 2, 0, 0);
    // The stream has an output, so the last one ends the drain, by the same report.
    host.drained();
    host.finish(Output, 1, wire::BUFFER_FLAG_EOS, 1033);
    // No drain is pending now.
    host.command("queue output 1", &guest::queue(7, Output, 1, 0));
    host.finish(Output, 1, wire::BUFFER_FLAG_EOS, 1066);
    host.finish(Output, 1, 0, 1066);

    host.command("queue input 2", &guest::queue(7, Input, 2, 2033));
    host.command("queue input 1", &guest::queue(7, Input, 1, 2000));
    host.command("clear the input queue", &guest::clear(7, Input));
    host.command("destroy stream 7", &guest::destroy(7));
    host.finish(Output, 1, 0, 2066);
    host.command("create stream 7 again", &guest::create(7, h264, ""));
    host.command("half a header", &guest::destroy(7)[..4]);

    // The stream is gone, but not that its number is spent: only a reset forgets it.
    assert_ne!(host.decoder.table(), Decoder::new().table());
    host.decoder.reset();
    assert_eq!(host.decoder.table(), Decoder::new().table());
    println!("The device is reset, and as it was at the start.");
}
