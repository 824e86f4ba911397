//! Commands as a guest writes them, for the example, the benchmark and the tests.

use virtio_video_decoder::{wire, QueueType};

/// Little-endian words, filled up with zeros to `length` bytes.
fn frame(words: &[u32], length: usize) -> Vec<u8> {
    let mut bytes: Vec<u8> = words.iter().flat_map(|word| word.to_le_bytes()).collect();
    bytes.resize(length, 0);
    bytes
}

/// A header and a queue type, 16 bytes.
fn of_queue(command: u32, stream: u32, queue: QueueType) -> Vec<u8> {
    frame(&[command, stream, queue.number()], 16)
}

pub fn create(stream: u32, format: u32, tag: &str) -> Vec<u8> {
    let mut bytes = frame(&[wire::CMD_STREAM_CREATE, stream, 0, 0, format], 88);
    bytes[24..24 + tag.len()].copy_from_slice(tag.as_bytes());
    bytes
}

pub fn destroy(stream: u32) -> Vec<u8> {
    frame(&[wire::CMD_STREAM_DESTROY, stream], 8)
}

pub fn drain(stream: u32) -> Vec<u8> {
    frame(&[wire::CMD_STREAM_DRAIN, stream], 8)
}

/// A resource of one plane, in so many pages from 0x10000 on.
pub fn import(stream: u32, queue: QueueType, resource: u32, pages: u32) -> Vec<u8> {
    let layout = wire::PLANES_LAYOUT_SINGLE_BUFFER;
    let head = [wire::CMD_RESOURCE_CREATE, stream, queue.number(), resource, layout, 1];
    let mut bytes = frame(&head, 56);
    bytes.extend(frame(&[pages], 32));
    for page in 0..pages {
        bytes.extend(frame(&[0x10000 + 4096 * page, 0, 4096], 16));
    }
    bytes
}

pub fn queue(stream: u32, queue: QueueType, resource: u32, timestamp: u64) -> Vec<u8> {
    let (low, high) = (timestamp as u32, (timestamp >> 32) as u32);
    frame(&[wire::CMD_RESOURCE_QUEUE, stream, queue.number(), resource, low, high], 64)
}

pub fn destroy_all(stream: u32, queue: QueueType) -> Vec<u8> {
    of_queue(wire::CMD_RESOURCE_DESTROY_ALL, stream, queue)
}

pub fn clear(stream: u32, queue: QueueType) -> Vec<u8> {
    of_queue(wire::CMD_QUEUE_CLEAR, stream, queue)
}

pub fn get_params(stream: u32, queue: QueueType) -> Vec<u8> {
    of_queue(wire::CMD_GET_PARAMS, stream, queue)
}

pub fn set_params(stream: u32, queue: QueueType, format: u32, size: (u32, u32)) -> Vec<u8> {
    frame(&[wire::CMD_SET_PARAMS, stream, queue.number(), format, size.0, size.1], 120)
}
