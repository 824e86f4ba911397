//! Command frames by the draft's structs, for the generator and for the cases written by hand.

use super::device::*;

/// A frame of so many bytes, its header filled and the rest zero.
pub fn frame(kind: u32, stream: u32, length: usize) -> Vec<u8> {
    let mut frame = vec![0; length];
    put(&mut frame, 0, kind);
    put(&mut frame, 4, stream);
    frame
}

/// struct virtio_video_stream_create.
pub fn stream_create(stream: u32, coded_format: u32, tag: &[u8]) -> Vec<u8> {
    let mut frame = frame(STREAM_CREATE, stream, 88);
    put(&mut frame, 16, coded_format);
    frame[24..24 + tag.len()].copy_from_slice(tag);
    frame
}

/// struct virtio_video_resource_create with its entries of (address, length).
pub fn resource_create(
    stream: u32,
    queue_type: u32,
    resource: u32,
    counts: &[u32],
    entries: &[(u64, u32)],
) -> Vec<u8> {
    let mut frame = frame(RESOURCE_CREATE, stream, 88 + 16 * entries.len());
    put(&mut frame, 8, queue_type);
    put(&mut frame, 12, resource);
    put(&mut frame, 16, 2);
    put(&mut frame, 20, counts.len() as u32);
    for (plane, &count) in counts.iter().take(8).enumerate() {
        put(&mut frame, 56 + 4 * plane, count);
    }
    for (entry, &(address, length)) in entries.iter().enumerate() {
        put_long(&mut frame, 88 + 16 * entry, address);
        put(&mut frame, 96 + 16 * entry, length);
    }
    frame
}

/// struct virtio_video_resource_queue.
pub fn resource_queue(
    stream: u32,
    queue_type: u32,
    resource: u32,
    timestamp: u64,
    size_count: u32,
) -> Vec<u8> {
    let mut frame = frame(RESOURCE_QUEUE, stream, 64);
    put(&mut frame, 8, queue_type);
    put(&mut frame, 12, resource);
    put_long(&mut frame, 16, timestamp);
    put(&mut frame, 24, size_count);
    frame
}

/// The commands of a queue type alone: 0x0106, 0x0107, 0x0108.
pub fn on_queue(kind: u32, stream: u32, queue_type: u32) -> Vec<u8> {
    let mut frame = frame(kind, stream, 16);
    put(&mut frame, 8, queue_type);
    frame
}

/// struct virtio_video_set_params.
pub fn set_params(
    stream: u32,
    queue_type: u32,
    format: u32,
    width: u32,
    height: u32,
    rate: u32,
) -> Vec<u8> {
    let mut frame = frame(SET_PARAMS, stream, 120);
    put(&mut frame, 8, queue_type);
    put(&mut frame, 12, format);
    put(&mut frame, 16, width);
    put(&mut frame, 20, height);
    put(&mut frame, 48, rate);
    frame
}

pub fn put(frame: &mut [u8], at: usize, number: u32) {
    frame[at..at + 4].copy_from_slice(&number.to_le_bytes());
}

pub fn put_long(frame: &mut [u8], at: usize, number: u64) {
    frame[at..at + 8].copy_from_slice(&number.to_le_bytes());
}
