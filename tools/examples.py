#!/usr/bin/env python3
"""Writes examples/: the logs and what they are to be answered with, and logs with answers and what is to be said of them.

Each line of a log stands here with its answer, as documents 01 and 02 have it: nothing is computed but the
digits. A command's ticket is the number of its line unless said otherwise, so that answers are
easily found. With --tables it prints the tables of docs/LOG.md instead.
"""

import sys
from pathlib import Path
from struct import pack

INPUT, OUTPUT = 0x100, 0x101
H264, NV12 = 0x1002, 3
MEMORY_END = 1 << 64


def words(*numbers):
    return pack(f"<{len(numbers)}I", *numbers)


def same(digits):
    return digits


# The frames of the draft.

def header(kind, stream, length=8):
    return words(kind, stream) + bytes(length - 8)


def create(stream, tag=b"", format=H264, memory=(0, 0)):
    return words(0x0101, stream, *memory, format, 0) + tag.ljust(64, b"\0")


def destroy(stream):
    return header(0x0102, stream)


def drain(stream):
    return header(0x0103, stream)


def resource(stream, queue, number, counts=(1,), entries=((0x1000, 0x1000),), layout=2, planes=None):
    planes = len(counts) if planes is None else planes
    counts = tuple(counts) + (0,) * (8 - len(counts))
    head = words(0x0104, stream, queue, number, layout, planes, *[0] * 8, *counts)
    return head + b"".join(pack("<QII", address, length, 0) for address, length in entries)


def queue(stream, queue, number, timestamp=0, sizes=1):
    return words(0x0105, stream, queue, number) + pack("<Q", timestamp) + words(sizes, *[0] * 9)


def destroy_all(stream, queue):
    return words(0x0106, stream, queue, 0)


def clear(stream, queue):
    return words(0x0107, stream, queue, 0)


def get_params(stream, queue):
    return words(0x0108, stream, queue, 0)


def set_params(stream, queue, format, width, height, rate=0):
    return words(0x0109, stream, queue, format, width, height, *[0] * 6, rate, *[0] * 17)


# The answers: what to call them and the bytes of their lines. Most are made once the ticket and the
# stream of their line are known.

class Answer:
    def __init__(self, text, data):
        self.text, self.bytes = text, data


def refused(number):
    return Answer(f"refused, {number}", bytes([0xFF, number]))


def answer(text, *numbers):
    return Answer(text, b"\x80" + words(*numbers))


def ok(ticket, stream):
    return answer("done", ticket, 0x0200, stream)


def error(code):
    return lambda ticket, stream: answer(f"0x{code:04x}", ticket, code, stream)


def drained(of, ticket=None):
    number = of if ticket is None else ticket
    return lambda _, stream: answer(f"the drain of line {of}", number, 0x0200, stream)


def buffer(of, timestamp, flags=0, ticket=None):
    text = f"the buffer of line {of}, timestamp {timestamp}, flags {flags}"
    number = of if ticket is None else ticket
    low, high = timestamp % 2**32, timestamp >> 32
    return lambda _, stream: answer(text, number, 0x0202, stream, low, high, flags, 0)


def parameters(queue, format, width, height, rate=0):
    planes = [262144, 0] if queue == INPUT else [width * height, width, width * height // 2, width]
    head = [queue, format, width, height, 1, 16, 0, 0, width, height, rate, len(planes) // 2]
    text = f"{width} by {height}, rate {rate}"
    return lambda ticket, stream: answer(
        text, ticket, 0x0203, stream, *head, *planes, *[0] * (16 - len(planes)))


class Log:
    def __init__(self, name):
        self.name, self.rows, self.ends = name, [], True

    def line(self, text, digits, *answers, of=None):
        """Adds a line; `of` are its ticket and stream, for the answers. Returns its number."""
        answers = [answer(*of) if callable(answer) else answer for answer in answers]
        self.rows.append((text, digits, answers))
        return len(self.rows)

    def command(self, text, frame, *answers, ticket=None, change=same):
        ticket = len(self.rows) + 1 if ticket is None else ticket
        stream = int.from_bytes(frame[4:8], "little")
        return self.line(text, change((b"\0" + words(ticket) + frame).hex()), *answers, of=(ticket, stream))

    def finish(self, text, stream, queue, number, flags, timestamp, *answers, change=same):
        frame = b"\1" + words(stream, queue, number, flags) + pack("<Q", timestamp)
        return self.line(text, change(frame.hex()), *answers, of=(0, stream))

    def drained(self, text, stream, *answers, change=same):
        return self.line(text, change((b"\2" + words(stream)).hex()), *answers, of=(0, stream))

    def write(self, folder):
        log = "\n".join(digits for _, digits, _ in self.rows) + "\n" * self.ends
        out = "".join(answer.bytes.hex() + "\n" for _, _, answers in self.rows for answer in answers)
        (folder / f"{self.name}.log").write_bytes(log.encode())
        (folder / f"{self.name}.out").write_bytes(out.encode())

    def write_checked(self, folder, name, verdict, left_out=None):
        """The log with its answers, each behind its question, but for the one of this text; and the verdict on it."""
        lines = []
        for _, digits, answers in self.rows:
            lines.append(digits)
            lines += [answer.bytes.hex() for answer in answers if answer.text != left_out]
        (folder / f"{name}.checked").write_bytes("".join(line + "\n" for line in lines).encode())
        (folder / f"{name}.verdict").write_bytes(f"{verdict}\n".encode())

    def table(self):
        """One row a line; lines with the same text and the same sort of answer share a row."""
        rows = []
        for number, (text, _, answers) in enumerate(self.rows, 1):
            said = "; ".join(answer.text for answer in answers) or "nothing"
            if len(answers) > 5:
                said = f"{len(answers)} answers"
            if rows and text in ("", rows[-1][2]) and said == rows[-1][3]:
                rows[-1][1] = number
            else:
                rows.append([number, number, text, said])
        print(f"### {self.name}\n\n| Line | What it is | Answers |\n|---|---|---|")
        for first, last, text, said in rows:
            span = str(first) if first == last else f"{first} to {last}"
            print(f"| {span} | {text} | {said} |")
        print()


def three_lines():
    log = Log("three_lines")
    log.command("drain stream 7, which is not there; ticket 5", drain(7), error(0x0302), ticket=5)
    log.drained("stream 7 drained", 7, refused(5))
    log.line("an empty line", "", refused(7))
    return log


def exchange():
    log = Log("exchange")
    pages = ((0x10000, 0x1000), (0x20000, 0x1000))
    log.command("create stream 7 for H.264, tag `lobby camera`", create(7, b"lobby camera"), ok)
    log.command("get the input's parameters", get_params(7, INPUT), parameters(INPUT, H264, 640, 480))
    log.command("get the output's parameters", get_params(7, OUTPUT), parameters(OUTPUT, NV12, 640, 480))
    log.command("set the output to NV12, 1280 by 720, rate 30", set_params(7, OUTPUT, NV12, 1280, 720, 30), ok)
    log.command("get the output's parameters", get_params(7, OUTPUT), parameters(OUTPUT, NV12, 1280, 720, 30))
    log.command("create input 1: one plane of two entries", resource(7, INPUT, 1, (2,), pages, layout=1), ok)
    log.command("create input 2: one plane of one entry", resource(7, INPUT, 2, layout=1), ok)
    log.command("create output 1: two planes of one entry each", resource(7, OUTPUT, 1, (1, 1), pages), ok)
    first = log.command("queue input 1, timestamp 1000", queue(7, INPUT, 1, 1000))
    picture = log.command("queue output 1", queue(7, OUTPUT, 1))
    log.finish("finish input 1", 7, INPUT, 1, 0, 0, buffer(first, 1000))
    log.finish("finish output 1, timestamp 1000", 7, OUTPUT, 1, 0, 1000, buffer(picture, 1000))
    log.finish("finish output 1, which is not Queued now", 7, OUTPUT, 1, 0, 1000, refused(5))
    second = log.command("queue input 2, timestamp 1033", queue(7, INPUT, 2, 1033))
    draining = log.command("drain", drain(7))
    log.command("queue input 1 while draining", queue(7, INPUT, 1, 1066), error(0x0300))
    picture = log.command("queue output 1 while draining", queue(7, OUTPUT, 1))
    log.finish("finish output 1, EOS, though input 2 is Queued", 7, OUTPUT, 1, 2, 1033, refused(5))
    log.finish("finish input 2", 7, INPUT, 2, 0, 0, buffer(second, 1033))
    log.drained("drained, though there is an output", 7, refused(5))
    text = "finish output 1, timestamp 1033, EOS"
    log.finish(text, 7, OUTPUT, 1, 2, 1033, buffer(picture, 1033, 2), drained(draining))
    second = log.command("queue input 2, timestamp 2033", queue(7, INPUT, 2, 2033))
    first = log.command("queue input 1, timestamp 2000", queue(7, INPUT, 1, 2000))
    log.command("clear the input", clear(7, INPUT), buffer(first, 2000, 1), buffer(second, 2033, 1), ok)
    log.command("destroy all inputs", destroy_all(7, INPUT), ok)
    log.command("queue input 1, which is no more", queue(7, INPUT, 1, 2066), error(0x0303))
    picture = log.command("queue output 1, timestamp 9", queue(7, OUTPUT, 1, 9))
    log.command("destroy stream 7", destroy(7), buffer(picture, 9, 1), ok)
    log.command("get the output's parameters", get_params(7, OUTPUT), error(0x0302))
    return log


def edges():
    log = Log("edges")
    bad, full = error(0x0304), error(0x0301)

    log.command("destroy stream 1, a command of 7 bytes", destroy(1)[:7], refused(4))
    log.command("the same of 8 bytes", destroy(1), error(0x0302))

    log.command("create stream 1, tag of 63 letters and a NUL", create(1, b"a" * 63), ok)
    log.command("create stream 2, tag of 64 letters", create(2, b"a" * 64), bad)
    log.command("create stream 2, no tag", create(2), ok)
    log.command("create stream 3, a tag that its NUL cuts in a character", create(3, b"caf\xc3"), bad)
    log.command("create stream 3, a surrogate in its tag", create(3, b"\xed\xa0\x80"), bad)
    log.command("create stream 3, anything behind the NUL", create(3, b"caf\xc3\xa9\0\xff"), ok)
    log.command("create stream 4, format 0x0fff", create(4, format=0x0FFF), bad)
    log.command("create stream 4, format 0x1006", create(4, format=0x1006), bad)
    log.command("create stream 4, format 0x1000", create(4, format=0x1000), ok)
    log.command("create stream 5, format 0x1005", create(5, format=0x1005), ok)
    for stream in 6, 7, 8:
        log.command("create streams 6 to 8", create(stream), ok)
    log.command("create stream 9, a ninth", create(9), full)

    for number in range(1, 17):
        log.command("stream 1: create inputs 1 to 16", resource(1, INPUT, number), ok)
    log.command("create input 17, a seventeenth", resource(1, INPUT, 17), full)
    log.command("create output 17, a first", resource(1, OUTPUT, 17), ok)

    log.command("create output 5, the number of an input", resource(1, OUTPUT, 5), ok)
    five = log.command("queue input 5, timestamp 2^64 - 1", queue(1, INPUT, 5, MEMORY_END - 1))
    log.finish("finish output 5, which is not Queued", 1, OUTPUT, 5, 0, 50, refused(5))
    picture = log.command("queue output 5", queue(1, OUTPUT, 5))
    log.finish("finish output 5, timestamp 50, ERR", 1, OUTPUT, 5, 1, 50, buffer(picture, 50, 1))
    log.finish("finish input 5", 1, INPUT, 5, 0, 50, buffer(five, MEMORY_END - 1))

    log.command("queue input 1, size count 9", queue(1, INPUT, 1, sizes=9), bad)
    padding = words(2**32 - 1)
    sizes = log.command("queue input 1, size count 8, padding not zero", queue(1, INPUT, 1, sizes=8)[:60] + padding)
    log.command("queue input 1 again", queue(1, INPUT, 1, 1), error(0x0300))
    log.finish("finish input 1, flags 4", 1, INPUT, 1, 4, 0, refused(6))
    log.finish("finish input 1, EOS", 1, INPUT, 1, 2, 0, refused(6))
    log.finish("finish input 1, ERR", 1, INPUT, 1, 1, 0, buffer(sizes, 0, 1))

    pages = [(0x1000 * page, 0x1000) for page in range(256)]
    log.command("stream 2: create output 1, entry sum 256 = 200 + 56, the longest command",
                resource(2, OUTPUT, 1, (200, 56), pages), ok)
    log.command("create output 2, entry sum 257 = 200 + 57, one entry", resource(2, OUTPUT, 2, (200, 57)), bad)
    log.command("create output 2, entry sum 2^32 + 1 = (2^32 - 1) + 2, one entry",
                resource(2, OUTPUT, 2, (2**32 - 1, 2)), bad)
    log.command("create output 2, entry sum 0, no entry", resource(2, OUTPUT, 2, (0,), ()), bad)
    log.command("create output 2, entry sum 1 and two entries", resource(2, OUTPUT, 2, (1,), pages[:2]), bad)
    log.command("create output 2, entry sum 2 and one entry", resource(2, OUTPUT, 2, (1, 1)), bad)
    log.command("create output 2, a count behind the planes", resource(2, OUTPUT, 2, (1, 9), planes=1), ok)
    log.command("create output 3, layout 1, counts 1 and 1", resource(2, OUTPUT, 3, (1, 1), pages[:2], layout=1), ok)
    log.command("create output 4, layout 0", resource(2, OUTPUT, 4, layout=0), bad)
    log.command("create output 4, layout 3", resource(2, OUTPUT, 4, layout=3), bad)
    log.command("create output 4, no plane", resource(2, OUTPUT, 4, (1,), planes=0), bad)
    log.command("create output 4, nine planes", resource(2, OUTPUT, 4, (1,) * 8, pages[:8], planes=9), bad)
    log.command("create output 4, eight planes", resource(2, OUTPUT, 4, (1,) * 8, pages[:8]), ok)

    ends = ((MEMORY_END - 0x1000, 0x1000),)
    log.command("create input 1, an entry ending at 2^64", resource(2, INPUT, 1, entries=ends), ok)
    past = ((MEMORY_END - 0x0FFF, 0x1000),)
    log.command("create input 2, an entry ending one past", resource(2, INPUT, 2, entries=past), bad)
    log.command("create input 2, an entry of length 0", resource(2, INPUT, 2, entries=((0x1000, 0),)), bad)

    log.command("stream 3: set the output 4098 wide", set_params(3, OUTPUT, NV12, 4098, 16), bad)
    for width in 4095, 17, 14:
        log.command(f"set the output {width} wide", set_params(3, OUTPUT, NV12, width, 16), bad)
    for height in 4098, 15, 14:
        log.command(f"set the output {height} high", set_params(3, OUTPUT, NV12, 16, height), bad)
    log.command("get the output's parameters", get_params(3, OUTPUT), parameters(OUTPUT, NV12, 640, 480))
    log.command("set the output 16 by 4096", set_params(3, OUTPUT, NV12, 16, 4096, 2**32 - 1), ok)
    log.command("set the output 4096 by 16", set_params(3, OUTPUT, NV12, 4096, 16), ok)
    log.command("set the input 4096 by 4096", set_params(3, INPUT, H264, 4096, 4096, 2**32 - 1), ok)
    log.command("get the output's parameters", get_params(3, OUTPUT), parameters(OUTPUT, NV12, 4096, 16))
    log.command("get the input's parameters", get_params(3, INPUT), parameters(INPUT, H264, 4096, 4096, 2**32 - 1))

    log.command("stream 4: clear the empty input", clear(4, INPUT), ok)
    log.command("clear the empty output", clear(4, OUTPUT), ok)
    draining = log.command("drain", drain(4))
    log.command("clear the empty output: the drain goes on", clear(4, OUTPUT), ok)
    log.command("destroy all inputs, none: the drain goes on", destroy_all(4, INPUT), ok)
    log.command("drain again", drain(4), error(0x0300))
    log.command("clear the empty input: the drain ends", clear(4, INPUT), drained(draining), ok)
    log.drained("drained, but no drain is pending", 4, refused(5))

    for number in 1, 2:
        log.command("stream 5: create inputs 1 and 2", resource(5, INPUT, number), ok)
    for number in 1, 2:
        log.command("create outputs 1 and 2", resource(5, OUTPUT, number), ok)
    first = log.command("queue input 1, timestamp 11", queue(5, INPUT, 1, 11))
    draining = log.command("drain", drain(5))
    log.command("queue input 2 while draining", queue(5, INPUT, 2, 12), error(0x0300))
    two = log.command("queue output 2 while draining, timestamp 22", queue(5, OUTPUT, 2, 22))
    one = log.command("queue output 1 while draining, timestamp 21", queue(5, OUTPUT, 1, 21))
    log.finish("finish output 1, ERR and EOS, an input Queued", 5, OUTPUT, 1, 3, 31, refused(5))
    log.command("destroy all inputs, one of which is Queued", destroy_all(5, INPUT), error(0x0300))
    stopped = buffer(first, 11, 1), buffer(one, 21, 1), buffer(two, 22, 1)
    log.command("destroy the stream", destroy(5), *stopped, drained(draining), ok)

    log.command("stream 6: create input 1", resource(6, INPUT, 1), ok)
    draining = log.command("drain", drain(6))
    log.drained("drained, nothing Queued", 6, drained(draining))
    first = log.command("queue input 1", queue(6, INPUT, 1, 1))
    draining = log.command("drain", drain(6))
    log.drained("drained, an input Queued", 6, refused(5))
    log.finish("finish input 1", 6, INPUT, 1, 0, 0, buffer(first, 1))
    log.drained("drained", 6, drained(draining))

    for kind, length in (0x010A, 15), (0x010A, 17), (0x010B, 15), (0x010B, 17), (0x010C, 15):
        log.command(f"0x{kind:04x} of {length} bytes", header(kind, 6, length), bad)
    for kind, length in (0x010A, 16), (0x010B, 16), (0x010C, 16), (0x010C, 17):
        log.command(f"0x{kind:04x} of {length} bytes", header(kind, 6, length), error(0x0305))
    for kind in 0x0100, 0x010D, 0x00010108, 0, 0x00FF, 0x0200, 2**32 - 1:
        log.command(f"type 0x{kind:08x}", header(kind, 6, 16), error(0x0300))

    log.command("digits 0, 9, a and f", destroy(9), error(0x0302), ticket=0x90AF09FA)
    log.command("digits 0, 9, A and F", destroy(9), error(0x0302), ticket=0x90AF09FA, change=str.upper)
    for byte in b"/:@G`g":
        log.drained(f"byte {byte} for a digit", 6, refused(7), change=lambda digits: digits[:-1] + chr(byte))

    # Stream 5 is destroyed, so that one place is free.
    invalid = error(0x0302)
    log.command("create stream 1024", create(1024), invalid)
    log.command("create stream 2^32 - 1", create(2**32 - 1), invalid)
    log.command("create stream 1023", create(1023), ok)
    log.command("create stream 1023 again", create(1023), invalid)
    log.command("create stream 9, still a ninth", create(9), full)
    log.command("destroy stream 1023", destroy(1023), ok)
    log.command("create stream 1023 again, which is destroyed", create(1023), invalid)
    log.command("create stream 9, now that a place is free", create(9), ok)
    log.command("create stream 9 again", create(9), invalid)
    log.command("destroy stream 9", destroy(9), ok)
    log.command("create stream 0", create(0), ok)
    log.command("create stream 0 again", create(0), invalid)

    # Stream 7 is there and has no resources yet.
    log.command("stream 7: create output 1", resource(7, OUTPUT, 1), ok)
    draining = log.command("drain", drain(7))
    log.drained("drained, output 1 Created", 7, refused(5))
    picture = log.command("queue output 1", queue(7, OUTPUT, 1, 1))
    log.drained("drained, output 1 Queued", 7, refused(5))
    log.finish("finish output 1, timestamp 71, ERR", 7, OUTPUT, 1, 1, 71, buffer(picture, 71, 1))
    log.drained("drained, output 1 Dequeued", 7, refused(5))
    picture = log.command("queue output 1", queue(7, OUTPUT, 1, 2))
    text = "finish output 1, timestamp 72, EOS"
    log.finish(text, 7, OUTPUT, 1, 2, 72, buffer(picture, 72, 2), drained(draining))
    log.finish("finish output 1, EOS, told twice", 7, OUTPUT, 1, 2, 72, refused(5))
    picture = log.command("queue output 1", queue(7, OUTPUT, 1, 3))
    log.finish("finish output 1, EOS, the drain answered", 7, OUTPUT, 1, 2, 73, refused(6))
    log.finish("finish output 1, ERR and EOS, the drain answered", 7, OUTPUT, 1, 3, 73, refused(6))
    draining = log.command("drain: a new one is taken", drain(7))
    log.drained("drained, output 1 Queued", 7, refused(5))
    text = "finish output 1, timestamp 73, ERR and EOS"
    log.finish(text, 7, OUTPUT, 1, 3, 73, buffer(picture, 73, 3), drained(draining))

    for number in 1, 2, 3:
        log.command("create inputs 1 to 3", resource(7, INPUT, number), ok)
    log.command("create output 2", resource(7, OUTPUT, 2), ok)
    first = log.command("queue input 1, timestamp 6: inputs are taken again", queue(7, INPUT, 1, 6))
    second = log.command("queue input 2, timestamp 7", queue(7, INPUT, 2, 7))
    one = log.command("queue output 1", queue(7, OUTPUT, 1, 4))
    two = log.command("queue output 2", queue(7, OUTPUT, 2, 5))
    draining = log.command("drain", drain(7))
    log.command("queue input 3 while draining", queue(7, INPUT, 3, 8), error(0x0300))
    log.finish("finish output 1, EOS, inputs 1 and 2 Queued", 7, OUTPUT, 1, 2, 74, refused(5))
    log.finish("finish output 1, ERR and EOS, inputs 1 and 2 Queued", 7, OUTPUT, 1, 3, 74, refused(5))
    log.finish("finish input 1, EOS, inputs 1 and 2 Queued", 7, INPUT, 1, 2, 0, refused(6))
    log.finish("finish input 1", 7, INPUT, 1, 0, 0, buffer(first, 6))
    log.finish("finish output 1, EOS, input 2 Queued", 7, OUTPUT, 1, 2, 74, refused(5))
    log.finish("finish output 1, timestamp 74, input 2 Queued", 7, OUTPUT, 1, 0, 74, buffer(one, 74))
    log.finish("finish input 2, ERR", 7, INPUT, 2, 1, 0, buffer(second, 7, 1))
    log.drained("drained, output 1 Dequeued and output 2 Queued", 7, refused(5))
    one = log.command("queue output 1", queue(7, OUTPUT, 1, 6))
    text = "finish output 1, timestamp 75, EOS, no input Queued"
    log.finish(text, 7, OUTPUT, 1, 2, 75, buffer(one, 75, 2), drained(draining))
    third = log.command("queue input 3, timestamp 8: inputs are taken again", queue(7, INPUT, 3, 8))
    log.finish("finish output 2, timestamp 76: it stayed Queued", 7, OUTPUT, 2, 0, 76, buffer(two, 76))
    log.finish("finish input 3", 7, INPUT, 3, 0, 0, buffer(third, 8))

    first = log.command("queue input 1, timestamp 9", queue(7, INPUT, 1, 9))
    one = log.command("queue output 1", queue(7, OUTPUT, 1, 7))
    draining = log.command("drain", drain(7))
    log.command("clear the input: the drain ends", clear(7, INPUT), buffer(first, 9, 1), drained(draining), ok)
    log.finish("finish output 1, EOS, which crossed the clear", 7, OUTPUT, 1, 2, 77, refused(6))
    log.finish("finish output 1, timestamp 77", 7, OUTPUT, 1, 0, 77, buffer(one, 77))
    draining = log.command("drain", drain(7))
    one = log.command("queue output 1, timestamp 10", queue(7, OUTPUT, 1, 10))
    log.command("clear the output: the drain goes on", clear(7, OUTPUT), buffer(one, 10, 1), ok)
    log.finish("finish output 1, EOS, which crossed the clear", 7, OUTPUT, 1, 2, 78, refused(5))
    log.command("drain again", drain(7), error(0x0300))
    one = log.command("queue output 1", queue(7, OUTPUT, 1, 11))
    log.finish("finish output 1, timestamp 78: the drain goes on", 7, OUTPUT, 1, 0, 78, buffer(one, 78))
    one = log.command("queue output 1", queue(7, OUTPUT, 1, 12))
    text = "finish output 1, timestamp 79, EOS"
    log.finish(text, 7, OUTPUT, 1, 2, 79, buffer(one, 79, 2), drained(draining))

    draining = log.command("drain", drain(7))
    log.drained("drained, outputs 1 and 2 Dequeued", 7, refused(5))
    log.command("destroy all outputs: the drain goes on", destroy_all(7, OUTPUT), ok)
    log.drained("drained, no output left", 7, drained(draining))
    log.drained("drained, but no drain is pending", 7, refused(5))
    draining = log.command("drain", drain(7))
    log.command("create output 3, a first", resource(7, OUTPUT, 3), ok)
    log.drained("drained, an output made since the drain", 7, refused(5))
    picture = log.command("queue output 3", queue(7, OUTPUT, 3, 13))
    text = "finish output 3, timestamp 80, EOS"
    log.finish(text, 7, OUTPUT, 3, 2, 80, buffer(picture, 80, 2), drained(draining))
    log.command("destroy all outputs", destroy_all(7, OUTPUT), ok)
    second = log.command("queue input 2, timestamp 14", queue(7, INPUT, 2, 14))
    draining = log.command("drain", drain(7))
    log.drained("drained, no outputs, input 2 Queued", 7, refused(5))
    log.command("create input 4: the drain goes on", resource(7, INPUT, 4), ok)
    log.command("set the output: the drain goes on", set_params(7, OUTPUT, NV12, 640, 480), ok)
    log.finish("finish input 2: the drain goes on", 7, INPUT, 2, 0, 0, buffer(second, 14))
    log.command("destroy all inputs: the drain goes on", destroy_all(7, INPUT), ok)
    log.drained("drained, no resources", 7, drained(draining))
    draining = log.command("stream 8, which never had resources: drain", drain(8))
    log.drained("drained", 8, drained(draining))

    # Stream 1 has sixteen inputs and two outputs.
    last = log.command("stream 1: queue input 16, the last of sixteen", queue(1, INPUT, 16, 15))
    picture = log.command("queue output 5", queue(1, OUTPUT, 5, 16))
    draining = log.command("drain", drain(1))
    log.finish("finish output 5, EOS, input 16 Queued", 1, OUTPUT, 5, 2, 81, refused(5))
    log.finish("finish input 16", 1, INPUT, 16, 0, 0, buffer(last, 15))
    text = "finish output 5, timestamp 81, EOS"
    log.finish(text, 1, OUTPUT, 5, 2, 81, buffer(picture, 81, 2), drained(draining))

    # Whatever answers the drain of another stream leaves that of stream 8.
    log.command("stream 8: create output 1", resource(8, OUTPUT, 1), ok)
    eight = log.command("drain", drain(8))
    picture = log.command("queue output 1", queue(8, OUTPUT, 1, 17))
    draining = log.command("drain stream 7", drain(7))
    log.drained("stream 7 drained", 7, drained(draining))
    log.command("create output 4 of stream 7", resource(7, OUTPUT, 4), ok)
    four = log.command("queue output 4 of stream 7", queue(7, OUTPUT, 4, 18))
    draining = log.command("drain stream 7", drain(7))
    text = "finish output 4 of stream 7, timestamp 82, EOS"
    log.finish(text, 7, OUTPUT, 4, 2, 82, buffer(four, 82, 2), drained(draining))
    draining = log.command("drain stream 7", drain(7))
    log.command("clear the input of stream 7: its drain ends", clear(7, INPUT), drained(draining), ok)
    draining = log.command("drain stream 6", drain(6))
    log.command("destroy stream 6", destroy(6), drained(draining), ok)
    text = "finish output 1 of stream 8, timestamp 83, EOS: its drain went on"
    log.finish(text, 8, OUTPUT, 1, 2, 83, buffer(picture, 83, 2), drained(eight))
    return log


def orders():
    log = Log("orders")
    operation, memory, stream, absent, bad = map(error, range(0x0300, 0x0305))
    dead = 99
    log.command("a command of 7 bytes of an unknown type", b"\xff" * 7, refused(4))

    # Stream 1: inputs 1 and outputs 1 are Queued, input 2 is not; stream 2 is draining.
    for number in range(1, 9):
        log.command("create streams 1 to 8, so that no place is left", create(number), ok)
    for number in 1, 2:
        log.command("stream 1: create inputs 1 and 2", resource(1, INPUT, number), ok)
    log.command("create output 1", resource(1, OUTPUT, 1), ok)
    first = log.command("queue input 1, timestamp 1", queue(1, INPUT, 1, 1))
    picture = log.command("queue output 1, timestamp 2", queue(1, OUTPUT, 1, 2))
    log.command("stream 2: create input 1", resource(2, INPUT, 1), ok)
    for number in range(1, 17):
        log.command("create outputs 1 to 16, so that no place is left", resource(2, OUTPUT, number), ok)
    draining = log.command("drain", drain(2))

    log.command("unknown type, stream not live", header(0x010D, dead), operation)
    log.command("0x0100, stream not live", header(0x0100, dead), operation)

    log.command("create: 87 bytes, number spent, live", create(1)[:87], bad)
    log.command("create: 87 bytes, no place", create(dead)[:87], bad)
    log.command("create: number spent, live, bad format, no place", create(1, format=0x1006), stream)
    log.command("create: number spent, live, tag without NUL, no place", create(1, b"\xff" * 64), stream)
    log.command("create: number spent, live, no place", create(1), stream)
    log.command("create: input memory type 1, no place", create(dead, memory=(1, 0)), bad)
    log.command("create: output memory type 1, no place", create(dead, memory=(0, 1)), bad)
    log.command("create: bad format, no place", create(dead, format=0x0FFF), bad)
    log.command("create: tag without NUL, no place", create(dead, b"a" * 64), bad)
    log.command("create: tag not UTF-8, no place", create(dead, b"\x80"), bad)
    log.command("create: no place", create(dead), memory)

    log.command("destroy: 9 bytes, stream not live", header(0x0102, dead, 9), bad)
    log.command("destroy: stream not live", destroy(dead), stream)

    log.command("drain: 9 bytes, stream not live", header(0x0103, dead, 9), bad)
    log.command("drain: 9 bytes, already draining", header(0x0103, 2, 9), bad)
    log.command("drain: stream not live", drain(dead), stream)
    log.command("drain: already draining", drain(2), operation)

    log.command("resource create: 87 bytes, stream not live", resource(dead, INPUT, 1)[:87], bad)
    log.command("resource create: stream not live, bad queue type", resource(dead, 0x102, 1), stream)
    log.command("resource create: stream not live, 89 bytes", header(0x0104, dead, 89), stream)
    present = {
        "bad queue type": resource(2, 0x102, 1),
        "layout 3": resource(2, OUTPUT, 1, layout=3),
        "no plane": resource(2, OUTPUT, 1, planes=0),
        "nine planes": resource(2, OUTPUT, 1, (1,) * 8, ((0, 1),) * 8, planes=9),
        "entry sum 0": resource(2, OUTPUT, 1, (0,), ()),
        "entry sum 257": resource(2, OUTPUT, 1, (257,)),
        "entry sum 2^32 + 1": resource(2, OUTPUT, 1, (2**32 - 1, 2)),
        "an entry too few": resource(2, OUTPUT, 1, (2,)),
        "an entry too many": resource(2, OUTPUT, 1, (1,), ((0, 1), (0, 1))),
        "entry of length 0": resource(2, OUTPUT, 1, (2,), ((0, 1), (0, 0))),
        "entry past 2^64": resource(2, OUTPUT, 1, (2,), ((0, 1), (MEMORY_END - 1, 2))),
    }
    for fault, frame in present.items():
        log.command(f"resource create: {fault}, number present, no place", frame, bad)
    log.command("resource create: bad queue type, no place in the outputs", resource(2, 0x200, 17), bad)
    log.command("resource create: entry sum 257, no place", resource(2, OUTPUT, 17, (257,)), bad)
    log.command("resource create: entry of length 0, no place", resource(2, OUTPUT, 17, entries=((0, 0),)), bad)
    log.command("resource create: number present, no place", resource(2, OUTPUT, 16), absent)
    log.command("resource create: no place", resource(2, OUTPUT, 17), memory)

    log.command("queue: 63 bytes, stream not live", queue(dead, INPUT, 1)[:63], bad)
    log.command("queue: 65 bytes, input while draining", queue(2, INPUT, 1) + b"\0", bad)
    log.command("queue: stream not live, size count 9", queue(dead, INPUT, 1, sizes=9), stream)
    log.command("queue: bad queue type, number absent, draining", queue(2, 0x102, 99), bad)
    log.command("queue: size count 9, input while draining", queue(2, INPUT, 1, sizes=9), bad)
    log.command("queue: size count 9, number absent", queue(1, INPUT, 99, sizes=9), bad)
    log.command("queue: size count 9, already Queued", queue(1, INPUT, 1, sizes=9), bad)
    log.command("queue: input while draining, number absent", queue(2, INPUT, 99), operation)
    log.command("queue: output while draining, number absent", queue(2, OUTPUT, 99), absent)
    log.command("queue: number absent in the output, present in the input", queue(1, OUTPUT, 2), absent)
    log.command("queue: already Queued", queue(1, INPUT, 1, 7), operation)
    log.command("queue: already Queued", queue(1, OUTPUT, 1, 7), operation)

    log.command("destroy all: 15 bytes, stream not live", destroy_all(dead, INPUT)[:15], bad)
    log.command("destroy all: 15 bytes, one Queued", destroy_all(1, INPUT)[:15], bad)
    log.command("destroy all: stream not live, bad queue type", destroy_all(dead, 0), stream)
    log.command("destroy all: bad queue type, both queues with one Queued", destroy_all(1, 0x102), bad)
    log.command("destroy all: one Queued", destroy_all(1, INPUT), operation)
    log.command("destroy all: one Queued", destroy_all(1, OUTPUT), operation)

    for name, frame in ("clear", clear), ("get", get_params):
        log.command(f"{name}: 17 bytes, stream not live", frame(dead, INPUT) + b"\0", bad)
        log.command(f"{name}: stream not live, bad queue type", frame(dead, 0x102), stream)
        log.command(f"{name}: bad queue type", frame(1, 0x102), bad)

    log.command("set: 119 bytes, stream not live", set_params(dead, INPUT, H264, 64, 64)[:119], bad)
    log.command("set: 121 bytes, one Queued", set_params(1, INPUT, H264, 64, 64) + b"\0", bad)
    log.command("set: stream not live, bad queue type, 15 wide", set_params(dead, 0x102, 0, 15, 64), stream)
    log.command("set: bad queue type, one Queued", set_params(1, 0x102, H264, 64, 64), bad)
    log.command("set: another coded format, one Queued", set_params(1, INPUT, 0x1003, 64, 64), bad)
    log.command("set: the coded format on the output, one Queued", set_params(1, OUTPUT, H264, 64, 64), bad)
    log.command("set: 14 wide, one Queued", set_params(1, OUTPUT, NV12, 14, 64), bad)
    log.command("set: 4098 high, one Queued", set_params(1, INPUT, H264, 64, 4098), bad)
    log.command("set: one Queued", set_params(1, INPUT, H264, 64, 64), operation)
    log.command("set: one Queued", set_params(1, OUTPUT, NV12, 64, 64), operation)

    control = error(0x0305)
    for kind in 0x010A, 0x010B, 0x010C:
        log.command(f"0x{kind:04x}: 15 bytes, stream not live", header(kind, dead, 15), bad)
        log.command(f"0x{kind:04x}: 15 bytes, unsupported", header(kind, 1, 15), bad)
        log.command(f"0x{kind:04x}: stream not live, unsupported", header(kind, dead, 16), stream)
        log.command(f"0x{kind:04x}: unsupported", header(kind, 1, 16), control)

    log.finish("finish: flags 4, stream not live", dead, OUTPUT, 1, 4, 0, refused(6))
    log.finish("finish: flags 6, an input, not Queued", 1, INPUT, 2, 6, 0, refused(6))
    log.finish("finish: flags 2^31, bad queue type", 1, 0x102, 1, 1 << 31, 0, refused(6))
    log.finish("finish: bad queue type, EOS", 1, 0x102, 1, 2, 0, refused(5))
    log.finish("finish: not Queued, EOS on an input", 1, INPUT, 2, 2, 0, refused(5))
    log.finish("finish: not Queued, EOS and no drain pending", 1, OUTPUT, 2, 2, 0, refused(5))
    log.finish("finish: stream not live, EOS", dead, OUTPUT, 1, 3, 0, refused(5))
    log.finish("finish: EOS on an input, an input Queued", 1, INPUT, 1, 2, 0, refused(6))
    log.finish("finish: EOS and no drain pending, an input Queued", 1, OUTPUT, 1, 3, 0, refused(6))
    log.drained("drained: stream not live", dead, refused(5))
    log.drained("drained: no drain pending, an input Queued", 1, refused(5))
    log.drained("drained: no drain pending", 3, refused(5))

    kept = log.command("stream 1: drain", drain(1))
    log.finish("finish: EOS on an input while draining, an input Queued", 1, INPUT, 1, 2, 0, refused(6))
    log.drained("drained: an input Queued, an output there", 1, refused(5))
    log.command("get: nothing above changed stream 1", get_params(1, OUTPUT), parameters(OUTPUT, NV12, 640, 480))
    log.command("destroy stream 1", destroy(1), buffer(first, 1, 1), buffer(picture, 2, 1), drained(kept), ok)
    log.command("clear the input of stream 2", clear(2, INPUT), drained(draining), ok)

    # Stream 1 is destroyed, and one place is free, which 99 takes.
    log.command(f"create stream {dead}: what was refused above spent nothing", create(dead), ok)
    log.command("create: 87 bytes, number spent, not live", create(1)[:87], bad)
    log.command("create: 89 bytes, number spent, not live", create(1) + b"\0", bad)
    faults = {
        "input memory type 1, ": {"memory": (1, 0)},
        "output memory type 1, ": {"memory": (0, 1)},
        "bad format, ": {"format": 0x0FFF},
        "tag without NUL, ": {"tag": b"a" * 64},
        "tag not UTF-8, ": {"tag": b"\x80"},
        "": {},
    }
    for fault, fields in faults.items():
        log.command(f"create: number spent, not live, {fault}no place", create(1, **fields), stream)
    log.command("create: 87 bytes, number 1024", create(1024)[:87], bad)
    log.command("create: 89 bytes, number 1024", create(1024) + b"\0", bad)
    for fault, fields in faults.items():
        log.command(f"create: number 1024, {fault}no place", create(1024, **fields), stream)
    log.command("create: number 1023, no place", create(1023), memory)
    log.finish("finish: flags 4, stream destroyed", 1, INPUT, 1, 4, 0, refused(6))
    log.finish("finish: stream destroyed", 1, INPUT, 1, 0, 0, refused(5))
    log.finish("finish: stream destroyed, EOS", 1, OUTPUT, 1, 2, 0, refused(5))
    log.drained("drained: stream destroyed", 1, refused(5))

    # Stream 3 drains with input 1 and output 1 Queued.
    log.command("stream 3: create input 1", resource(3, INPUT, 1), ok)
    for number in 1, 2:
        log.command("create outputs 1 and 2", resource(3, OUTPUT, number), ok)
    first = log.command("queue input 1, timestamp 3", queue(3, INPUT, 1, 3))
    one = log.command("queue output 1", queue(3, OUTPUT, 1, 4))
    draining = log.command("drain", drain(3))
    log.finish("finish: flags 6, EOS among them, an input Queued", 3, OUTPUT, 1, 6, 0, refused(6))
    log.finish("finish: bad queue type, EOS, an input Queued", 3, 0x102, 1, 2, 0, refused(5))
    log.finish("finish: not Queued, EOS, an input Queued", 3, OUTPUT, 2, 2, 0, refused(5))
    log.finish("finish: EOS on an input, an input Queued", 3, INPUT, 1, 2, 0, refused(6))
    log.finish("finish: ERR and EOS on an input, an input Queued", 3, INPUT, 1, 3, 0, refused(6))
    log.finish("finish: EOS, an input Queued", 3, OUTPUT, 1, 2, 0, refused(5))
    log.finish("finish: ERR and EOS, an input Queued", 3, OUTPUT, 1, 3, 0, refused(5))
    log.drained("drained: an input Queued, outputs there", 3, refused(5))
    log.finish("finish input 1", 3, INPUT, 1, 0, 0, buffer(first, 3))
    log.drained("drained: outputs there", 3, refused(5))
    two = log.command("queue output 2", queue(3, OUTPUT, 2, 5))
    text = "finish output 1, timestamp 33, EOS: nothing above ended the drain"
    log.finish(text, 3, OUTPUT, 1, 2, 33, buffer(one, 33, 2), drained(draining))
    log.finish("finish: flags 6, not Queued, EOS and no drain pending", 3, OUTPUT, 1, 6, 0, refused(6))
    log.finish("finish: bad queue type, EOS and no drain pending", 3, 0x102, 2, 2, 0, refused(5))
    log.finish("finish: not Queued, EOS and no drain pending", 3, OUTPUT, 1, 2, 0, refused(5))
    log.finish("finish: EOS and no drain pending", 3, OUTPUT, 2, 2, 0, refused(6))
    log.finish("finish: ERR and EOS and no drain pending", 3, OUTPUT, 2, 3, 0, refused(6))
    log.drained("drained: no drain pending, outputs there", 3, refused(5))
    first = log.command("queue input 1, timestamp 6", queue(3, INPUT, 1, 6))
    log.finish("finish: EOS and no drain pending, an input Queued", 3, OUTPUT, 2, 2, 0, refused(6))
    log.finish("finish output 2, timestamp 34", 3, OUTPUT, 2, 0, 34, buffer(two, 34))
    log.finish("finish input 1", 3, INPUT, 1, 0, 0, buffer(first, 6))
    return log


def streams():
    log = Log("streams")
    log.command("create stream 10 for H.264", create(10, b"ten"), ok)
    log.command("create stream 11 for VP9", create(11, b"eleven", format=0x1005), ok)
    log.command("create stream 12 for MPEG-2", create(12, b"twelve", format=0x1000), ok)
    log.command("set the output of stream 11 to 320 by 240", set_params(11, OUTPUT, NV12, 320, 240), ok)
    for stream in 10, 11, 12:
        log.command("create input 1 of each", resource(stream, INPUT, 1), ok)
    for stream in 11, 10:
        log.command("create output 1 of streams 11 and 10", resource(stream, OUTPUT, 1), ok)
    ten = log.command("queue input 1 of stream 10, timestamp 100, ticket 77", queue(10, INPUT, 1, 100), ticket=77)
    text = "queue input 1 of stream 11, timestamp 200, ticket 77 too"
    eleven = log.command(text, queue(11, INPUT, 1, 200), ticket=77)
    picture = log.command("queue output 1 of stream 10", queue(10, OUTPUT, 1))
    twelve = log.command("queue input 1 of stream 12, timestamp 300", queue(12, INPUT, 1, 300))
    draining = log.command("drain stream 12, which has no outputs", drain(12))
    log.finish("finish input 1 of stream 11", 11, INPUT, 1, 0, 0, buffer(eleven, 200, ticket=77))
    log.command("queue input 1 of stream 12 while draining", queue(12, INPUT, 1, 301), error(0x0300))
    again = log.command("queue input 1 of stream 11 again, timestamp 201", queue(11, INPUT, 1, 201))
    log.finish("finish input 1 of stream 12", 12, INPUT, 1, 0, 0, buffer(twelve, 300))
    log.drained("stream 11 drained, but no drain is pending", 11, refused(5))
    log.drained("stream 12 drained", 12, drained(draining))
    log.finish("finish output 1 of stream 10, timestamp 100", 10, OUTPUT, 1, 0, 100, buffer(picture, 100))
    log.finish("finish output 1 of stream 12, which is not there", 12, OUTPUT, 1, 0, 100, refused(5))
    log.command("destroy stream 10", destroy(10), buffer(ten, 100, 1, ticket=77), ok)
    log.finish("finish input 1 of stream 10, too late", 10, INPUT, 1, 0, 0, refused(5))
    log.command("get the output of stream 10", get_params(10, OUTPUT), error(0x0302))
    log.command("get the output of stream 11", get_params(11, OUTPUT), parameters(OUTPUT, NV12, 320, 240))
    log.command("create stream 13, where stream 10 stood", create(13, b"thirteen", format=0x1001), ok)
    invalid = error(0x0302)
    log.command("create stream 10 again, for VP8", create(10, b"ten", format=0x1004), invalid)
    log.command("get the input of stream 10", get_params(10, INPUT), invalid)
    log.command("queue input 1 of stream 10", queue(10, INPUT, 1), invalid)
    log.command("create input 1 of stream 10", resource(10, INPUT, 1), invalid)
    log.command("queue input 1 of stream 10, timestamp 400", queue(10, INPUT, 1, 400), invalid)
    log.command("destroy stream 12", destroy(12), ok)
    log.command("clear the input of stream 11", clear(11, INPUT), buffer(again, 201, 1), ok)
    log.finish("finish input 1 of stream 10, too late", 10, INPUT, 1, 0, 0, refused(5))
    for stream in 11, 13:
        log.command("destroy streams 11 and 13", destroy(stream), ok)
    log.command("destroy stream 10", destroy(10), invalid)

    log.command("create stream 14, for VP8, where streams 10 and 13 stood", create(14, b"fourteen", format=0x1004), ok)
    text = "get its input: nothing is left of the old ones"
    log.command(text, get_params(14, INPUT), parameters(INPUT, 0x1004, 640, 480))
    log.command("queue input 1 of stream 14", queue(14, INPUT, 1), error(0x0303))
    log.command("create input 1 of stream 14", resource(14, INPUT, 1), ok)
    new = log.command("queue input 1 of stream 14, timestamp 400", queue(14, INPUT, 1, 400))
    draining = log.command("drain stream 14", drain(14))
    log.finish("finish input 1 of stream 10, too late", 10, INPUT, 1, 0, 0, refused(5))
    log.finish("the same with flags 4", 10, INPUT, 1, 4, 0, refused(6))
    log.finish("finish input 1 of stream 14", 14, INPUT, 1, 0, 0, buffer(new, 400))
    log.drained("stream 10 drained, too late", 10, refused(5))
    log.command("create stream 10 once more, tag without NUL", create(10, b"a" * 64), invalid)
    log.command("create stream 10 once more, 87 bytes", create(10)[:87], error(0x0304))
    log.command("create stream 15, tag without NUL", create(15, b"a" * 64), error(0x0304))
    log.command("create stream 15: that spent nothing", create(15), ok)
    log.command("destroy stream 14", destroy(14), drained(draining), ok)
    log.drained("stream 14 drained, too late", 14, refused(5))
    for stream in 14, 13, 12, 11:
        log.command("create streams 14 down to 11 again", create(stream), invalid)
    log.command("destroy stream 15", destroy(15), ok)

    log.command("create stream 65552, which is 16 in its low half", create(0x10010), invalid)
    log.command("create stream 16", create(16), ok)
    log.command("create stream 48, which is 32 further on", create(48), ok)
    for stream in 16, 48:
        log.command("destroy streams 16 and 48", destroy(stream), ok)

    for stream in 17, 18:
        log.command("create streams 17 and 18", create(stream), ok)
    for stream in 17, 18:
        log.command("create output 1 of both", resource(stream, OUTPUT, 1), ok)
    log.command("create input 1 of stream 17", resource(17, INPUT, 1), ok)
    first = log.command("queue input 1 of stream 17, timestamp 499", queue(17, INPUT, 1, 499))
    seventeen = log.command("queue output 1 of stream 17", queue(17, OUTPUT, 1))
    eighteen = log.command("queue output 1 of stream 18", queue(18, OUTPUT, 1))
    draining = log.command("drain stream 17", drain(17))
    text = "finish output 1 of stream 18, EOS, but the drain is of stream 17"
    log.finish(text, 18, OUTPUT, 1, 2, 500, refused(6))
    other = log.command("drain stream 18", drain(18))
    log.finish("finish output 1 of stream 17, EOS, its input Queued", 17, OUTPUT, 1, 2, 501, refused(5))
    text = "finish output 1 of stream 18, timestamp 500, EOS, the input of stream 17 Queued"
    log.finish(text, 18, OUTPUT, 1, 2, 500, buffer(eighteen, 500, 2), drained(other))
    log.finish("finish input 1 of stream 17", 17, INPUT, 1, 0, 0, buffer(first, 499))
    text = "finish output 1 of stream 17, timestamp 501, EOS"
    log.finish(text, 17, OUTPUT, 1, 2, 501, buffer(seventeen, 501, 2), drained(draining))
    seventeen = log.command("queue output 1 of stream 17, timestamp 7", queue(17, OUTPUT, 1, 7))
    draining = log.command("drain stream 17", drain(17))
    log.command("destroy stream 17", destroy(17), buffer(seventeen, 7, 1), drained(draining), ok)
    log.finish("finish output 1 of stream 17, EOS, too late", 17, OUTPUT, 1, 2, 502, refused(5))
    log.command("create stream 19, where stream 17 stood", create(19), ok)
    log.command("create output 1 of stream 19", resource(19, OUTPUT, 1), ok)
    picture = log.command("queue output 1 of stream 19", queue(19, OUTPUT, 1))
    text = "finish output 1 of stream 19, EOS, but no drain is left of stream 17"
    log.finish(text, 19, OUTPUT, 1, 2, 502, refused(6))
    draining = log.command("drain stream 19", drain(19))
    text = "finish output 1 of stream 19, timestamp 502, EOS"
    log.finish(text, 19, OUTPUT, 1, 2, 502, buffer(picture, 502, 2), drained(draining))
    for stream in 18, 19:
        log.command("destroy streams 18 and 19", destroy(stream), ok)
    return log


def rearranged():
    log = Log("rearranged")
    operation = error(0x0300)
    taken = {}

    # Streams that are to be in one state get their queueings and drains under one ticket, since the table keeps it.
    # So the answers to these differ in nothing but the stream.
    def each(text, streams, what, frame):
        ticket = len(log.rows) + 1
        for stream in streams:
            taken[stream, what] = log.command(text, frame(stream), ticket=ticket), ticket

    def done(stream, what, timestamp, flags=0):
        line, ticket = taken[stream, what]
        return buffer(line, timestamp, flags, ticket)

    def ended(stream):
        return drained(*taken[stream, "drain"])

    # A run of reports without EOS, with no drain pending on streams 1 and 11, and with one on streams 2 and 12.
    four = 1, 11, 2, 12
    for stream in four:
        log.command("create streams 1, 11, 2 and 12", create(stream), ok)
    for number in 1, 2, 3:
        for stream in four:
            log.command("create inputs 1 to 3 of each", resource(stream, INPUT, number), ok)
    for number in 1, 2, 3:
        for stream in four:
            log.command("create outputs 1 to 3 of each", resource(stream, OUTPUT, number), ok)
    for number in 1, 2, 3:
        text = f"queue input {number} of each, timestamp {10 + number}"
        each(text, four, f"input {number}", lambda stream: queue(stream, INPUT, number, 10 + number))
    for number in 1, 2, 3:
        text = f"queue output {number} of each, timestamp {20 + number}"
        each(text, four, f"output {number}", lambda stream: queue(stream, OUTPUT, number, 20 + number))

    reports = {
        "input 1": ("finish input 1", INPUT, 1, 0, 0, 11),
        "output 1": ("finish output 1, timestamp 31, ERR", OUTPUT, 1, 1, 31, 31),
        "input 2": ("finish input 2, ERR", INPUT, 2, 1, 0, 12),
        "output 2": ("finish output 2, timestamp 32", OUTPUT, 2, 0, 32, 32),
    }

    def run(stream, *order):
        first = f"stream {stream}: "
        for what in order:
            text, queue_type, number, flags, timestamp, answered = reports[what]
            log.finish(first + text, stream, queue_type, number, flags, timestamp, done(stream, what, answered, flags))
            first = ""

    run(1, "input 1", "output 1", "input 2", "output 2")
    run(11, "output 2", "input 1", "input 2", "output 1")
    for stream in 1, 11:
        text = "finish output 1 of both again, which is not Queued now"
        log.finish(text, stream, OUTPUT, 1, 1, 31, refused(5))
    each("queue input 1 of both, timestamp 14", (1, 11), "input 1", lambda stream: queue(stream, INPUT, 1, 14))
    for stream in 1, 11:
        log.command("queue input 3 of both, which stayed Queued", queue(stream, INPUT, 3, 15), operation)
    for stream in 1, 11:
        stopped = done(stream, "output 3", 23, 1)
        log.command(f"clear the output of stream {stream}", clear(stream, OUTPUT), stopped, ok)
    for stream in 1, 11:
        stopped = done(stream, "input 1", 14, 1), done(stream, "input 3", 13, 1)
        log.command(f"destroy stream {stream}", destroy(stream), *stopped, ok)

    each("drain streams 2 and 12", (2, 12), "drain", drain)
    run(2, "input 1", "output 1", "input 2", "output 2")
    run(12, "output 2", "input 2", "output 1", "input 1")
    for stream in 2, 12:
        log.command("queue input 1 of both while draining", queue(stream, INPUT, 1, 14), operation)
    each("queue output 1 of both, timestamp 24", (2, 12), "output 1", lambda stream: queue(stream, OUTPUT, 1, 24))
    for stream in 2, 12:
        stopped = done(stream, "input 3", 13, 1), done(stream, "output 1", 24, 1), done(stream, "output 3", 23, 1)
        log.command(f"destroy stream {stream}", destroy(stream), *stopped, ended(stream), ok)

    # A clear between two reports.
    both = 3, 13
    for stream in both:
        log.command("create streams 3 and 13", create(stream), ok)
    for stream in both:
        log.command("create input 1 of both", resource(stream, INPUT, 1), ok)
    for stream in both:
        log.command("create output 1 of both", resource(stream, OUTPUT, 1), ok)
    each("queue input 1 of both, timestamp 11", both, "input 1", lambda stream: queue(stream, INPUT, 1, 11))
    each("queue output 1 of both, timestamp 21", both, "output 1", lambda stream: queue(stream, OUTPUT, 1, 21))
    log.finish("stream 3: finish output 1, timestamp 31", 3, OUTPUT, 1, 0, 31, done(3, "output 1", 31))
    log.command("clear the output", clear(3, OUTPUT), ok)
    log.finish("finish input 1", 3, INPUT, 1, 0, 0, done(3, "input 1", 11))
    log.finish("stream 13: finish input 1", 13, INPUT, 1, 0, 0, done(13, "input 1", 11))
    log.command("clear the output, output 1 Queued", clear(13, OUTPUT), done(13, "output 1", 21, 1), ok)
    log.finish("finish output 1, timestamp 31, which is not Queued now", 13, OUTPUT, 1, 0, 31, refused(5))
    for stream in both:
        log.command("destroy streams 3 and 13", destroy(stream), ok)

    # EOS between two reports, with a drain pending.
    both = 4, 14
    for stream in both:
        log.command("create streams 4 and 14", create(stream), ok)
    for stream in both:
        log.command("create input 1 of both", resource(stream, INPUT, 1), ok)
    for number in 1, 2:
        for stream in both:
            log.command("create outputs 1 and 2 of both", resource(stream, OUTPUT, number), ok)
    each("queue input 1 of both, timestamp 11", both, "input 1", lambda stream: queue(stream, INPUT, 1, 11))
    each("queue output 1 of both, timestamp 21", both, "output 1", lambda stream: queue(stream, OUTPUT, 1, 21))
    each("queue output 2 of both, timestamp 22", both, "output 2", lambda stream: queue(stream, OUTPUT, 2, 22))
    each("drain both", both, "drain", drain)
    log.finish("stream 4: finish input 1", 4, INPUT, 1, 0, 0, done(4, "input 1", 11))
    text = "finish output 1, timestamp 31, EOS"
    log.finish(text, 4, OUTPUT, 1, 2, 31, done(4, "output 1", 31, 2), ended(4))
    log.finish("finish output 2, timestamp 32", 4, OUTPUT, 2, 0, 32, done(4, "output 2", 32))
    log.finish("stream 14: finish output 2, timestamp 32", 14, OUTPUT, 2, 0, 32, done(14, "output 2", 32))
    log.finish("finish output 1, timestamp 31, EOS, input 1 Queued", 14, OUTPUT, 1, 2, 31, refused(5))
    log.finish("finish input 1", 14, INPUT, 1, 0, 0, done(14, "input 1", 11))
    first = log.command("queue input 1 of stream 4, timestamp 14: inputs are taken again", queue(4, INPUT, 1, 14))
    log.command("queue input 1 of stream 14: its drain is pending", queue(14, INPUT, 1, 14), operation)
    text = "finish output 1 of stream 14 again, timestamp 31, EOS"
    log.finish(text, 14, OUTPUT, 1, 2, 31, done(14, "output 1", 31, 2), ended(14))
    second = log.command("queue input 1 of stream 14, timestamp 14", queue(14, INPUT, 1, 14))
    log.command("destroy stream 4", destroy(4), buffer(first, 14, 1), ok)
    log.command("destroy stream 14", destroy(14), buffer(second, 14, 1), ok)

    # A drained report on either side of a finish.
    both = 5, 15
    for stream in both:
        log.command("create streams 5 and 15", create(stream), ok)
    for stream in both:
        log.command("create input 1 of both, and no outputs", resource(stream, INPUT, 1), ok)
    each("queue input 1 of both, timestamp 11", both, "input 1", lambda stream: queue(stream, INPUT, 1, 11))
    each("drain both", both, "drain", drain)
    log.finish("stream 5: finish input 1", 5, INPUT, 1, 0, 0, done(5, "input 1", 11))
    log.drained("drained", 5, ended(5))
    log.drained("stream 15: drained, input 1 Queued", 15, refused(5))
    log.finish("finish input 1", 15, INPUT, 1, 0, 0, done(15, "input 1", 11))
    first = log.command("queue input 1 of stream 5, timestamp 14: inputs are taken again", queue(5, INPUT, 1, 14))
    log.command("queue input 1 of stream 15: its drain is pending", queue(15, INPUT, 1, 14), operation)
    log.drained("stream 15 drained, told again", 15, ended(15))
    second = log.command("queue input 1 of stream 15, timestamp 14", queue(15, INPUT, 1, 14))
    log.command("destroy stream 5", destroy(5), buffer(first, 14, 1), ok)
    log.command("destroy stream 15", destroy(15), buffer(second, 14, 1), ok)
    return log


def most():
    log = Log("most")
    log.command("create stream 3", create(3, b"most"), ok)
    inputs = list(range(16, 0, -1))
    outputs = [2**31 + 8 - number // 2 if number % 2 else number // 2 for number in range(16)]
    for number in inputs:
        log.command("create inputs 16 down to 1", resource(3, INPUT, number), ok)
    for number in outputs:
        log.command("create outputs 0 and 2^31 + 8, 1 and 2^31 + 7, .. 7 and 2^31 + 1", resource(3, OUTPUT, number), ok)
    queued = {}
    for number in inputs[1::2] + inputs[::2]:
        text = "queue the odd inputs, then the even ones, downwards; timestamp 1000 + number"
        queued[INPUT, number] = log.command(text, queue(3, INPUT, number, 1000 + number))
    for number in outputs:
        text = "queue the outputs in the order of their creation; timestamp: the number times 2^32"
        queued[OUTPUT, number] = log.command(text, queue(3, OUTPUT, number, number << 32))
    draining = log.command("drain", drain(3))
    stopped = [buffer(queued[INPUT, number], 1000 + number, 1) for number in sorted(inputs)]
    stopped += [buffer(queued[OUTPUT, number], number << 32, 1) for number in sorted(outputs)]
    log.command("destroy the stream", destroy(3), *stopped, drained(draining), ok)
    return log


def lines():
    log = Log("lines")
    no = refused(7)
    ask = destroy(0x2CE)
    dead = error(0x0302)
    log.command("create stream 20", create(20), ok)
    log.command("create input 1", resource(20, INPUT, 1), ok)
    first = log.command("queue input 1, timestamp 5", queue(20, INPUT, 1, 5))
    draining = log.command("drain", drain(20))

    ticket = 0xDEADBEEF
    log.command("destroy stream 718 with ticket 0xdeadbeef, lower case", ask, dead, ticket=ticket)
    log.command("the same in upper case", ask, dead, ticket=ticket, change=str.upper)
    log.command("the same in both", ask, dead, ticket=ticket, change=str.title)

    log.command("a digit short", ask, no, change=lambda digits: digits[:-1])
    log.command("a digit too many", ask, no, change=lambda digits: digits + "0")
    log.line("a digit alone", "0", no)
    log.command("a blank in front", ask, no, change=lambda digits: " " + digits)
    log.command("a blank behind", ask, no, change=lambda digits: digits + " ")
    log.command("a blank between two fields", ask, no, change=lambda digits: f"{digits[:10]} {digits[10:]}")
    log.command("a tab behind", ask, no, change=lambda digits: digits + "\t")
    log.command("a carriage return behind", ask, no, change=lambda digits: digits + "\r")
    log.command("0x in front", ask, no, change=lambda digits: "0x" + digits)
    log.command("a digit that is none: g", ask, no, change=lambda digits: digits[:-1] + "g")
    log.line("words", "drain stream 20", no)
    log.line("an empty line in the middle", "", no)

    for kind in "03", "10", "7f":
        log.command(f"first byte {kind}", ask, no, change=lambda digits: kind + digits[2:])
    log.line("first byte 80: an answer", "80050000000203000007000000", no)
    log.line("first byte ff: a refusal", "ff05", no)

    log.line("00 of 1 byte", "00", no)
    log.line("00 of 4 bytes: no whole ticket", "00" + "1a0000", no)
    log.line("00 of 5 bytes: a command of 0 bytes", "00" + "1b000000", refused(4))
    log.command("00 of 12 bytes: a command of 7", ask[:7], refused(4))
    log.command("00 of 13 bytes: a command of 8", ask, dead)

    report = 20, INPUT, 1, 0, 0
    log.finish("01 of 24 bytes, finish input 1", *report, no, change=lambda digits: digits[:-2])
    log.finish("01 of 26 bytes, the same", *report, no, change=lambda digits: digits + "00")
    log.finish("01 of 25 bytes, the same", *report, buffer(first, 5))
    log.finish("01 of 25 bytes, again", *report, refused(5))

    log.drained("02 of 4 bytes, stream 20 drained", 20, no, change=lambda digits: digits[:-2])
    log.drained("02 of 6 bytes, the same", 20, no, change=lambda digits: digits + "00")
    log.drained("02 of 5 bytes, the same", 20, drained(draining))
    log.drained("02 of 5 bytes, again", 20, refused(5))

    control = error(0x0305)
    log.command("00 of 4,189 bytes: a command of 4,184", header(0x010C, 20, 4184), control)
    log.command("00 of 4,190 bytes: a command of 4,185", header(0x010C, 20, 4185), no)
    long = (b"\0" + words(77) + header(0x010C, 20, 4184)).hex()
    short = (b"\0" + words(78) + destroy(20)).hex()
    log.line("an over-long line of 8,379 digits, whose first 8,378 would be a frame", long + "0", no)
    log.line("an over-long line, whose tail would be a frame too", long + short, no)
    log.line("an over-long line of 20,000 digits", "00" * 10000, no)
    log.command("stream 20 is still there", destroy_all(20, INPUT), ok)
    log.command("a last line without byte 10", destroy(20), ok)
    log.ends = False
    return log


def main():
    folder = Path(__file__).resolve().parent.parent / "examples"
    for make in three_lines, exchange, edges, orders, streams, rearranged, most, lines:
        if "--tables" in sys.argv:
            make().table()
        else:
            make().write(folder)
    if "--tables" not in sys.argv:
        exchange().write_checked(folder, "exchange", "accepted")
        # Line 37 answers the picture with EOS; the drain that ends with it should be answered behind it, and is not.
        exchange().write_checked(folder, "rival", "line 38: missing", left_out="the drain of line 15")


if __name__ == "__main__":
    main()
