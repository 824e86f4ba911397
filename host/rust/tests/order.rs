//! The order of finish reports inside one stream, by document 02, request 14: a run of them without
//! EOS, each accepted in its turn, may come in any order. Each report then gets the same result and
//! the same bytes, and the run leaves the same table. This is tested on seeded random tables, and
//! what breaks it is written out by hand. `TABLES` sets the number of tables, `SEED` the seed.

mod independent;

use std::collections::{BTreeMap, BTreeSet};
use std::time::Instant;

use independent::by_hand;
use independent::device::*;
use independent::frames;
use independent::layout::WORDS;
use independent::lent::{difference, Room};
use independent::on_words::{Core, OnWords, Outcome};
use independent::order_slips;
use independent::program::variable;
use independent::random::{queue, Generator, Rng};
use independent::slips::Slip;
use independent::UnderTest;

const TABLES: u64 = 3_000;
const SEED: u64 = 1;
/// How many tables a slip has to show on.
const SLIP_TABLES: u64 = 300;
/// How often each name of `names` is to be met.
const OFTEN: u32 = 25;

#[test]
fn any_order_of_finishes() {
    let (seed, tables) = (variable("SEED", SEED), variable("TABLES", TABLES));
    let start = Instant::now();
    let (core, mut generator) = (UnderTest::default(), Generator::new(seed));
    let (mut met, mut made) = (BTreeMap::<Why, u32>::new(), 0);
    for table in 0..tables {
        let (device, run) = any_run(&mut generator);
        for (name, is_met) in names(&device, &run) {
            *met.entry(name).or_default() += u32::from(is_met);
        }
        let orders = orders(&mut generator.rng, run.turns.len());
        made += orders.len();
        let wrong = parts(&core, &run, &orders).or_else(|| parts_from_device(&core, &run, &orders));
        assert_eq!(wrong, None, "seed {seed}, table {table}");
    }
    println!("{tables} tables, {made} orders, {:.1} s", start.elapsed().as_secs_f64());
    met.iter().for_each(|(name, times)| println!("{times:6} {name}"));
    // A shorter run need not get everywhere.
    if tables >= TABLES {
        met.retain(|_, times| *times < OFTEN);
        assert!(met.is_empty(), "met too seldom: {met:?}");
    }
}

/// Of two reports on one buffer the second is refused with 5, in either order, and changes nothing.
/// So the reports of a run are on different buffers.
#[test]
fn finishes_of_one_buffer_are_not_a_run() {
    let (mut generator, mut met) = (Generator::new(SEED), BTreeSet::new());
    for _ in 0..TABLES / 10 {
        let (device, run) = any_run(&mut generator);
        for turn in &run.turns {
            one_buffer(&UnderTest::default(), &run.table, turn);
            one_buffer(&OnWords(None), &run.table, turn);
            let Report { stream, queue_type, flags, .. } = turn.report;
            let drain = device.stream(stream).and_then(|stream| stream.drain);
            met.insert((queue_type, flags, drain.is_some()));
        }
    }
    assert_eq!(met.len(), 8, "inputs and outputs, ERR and none, a drain pending and none: {met:?}");
}

/// A report of a run and another one on the same buffer, with the other flag and timestamp.
fn one_buffer(core: &dyn Core, table: &[u32], turn: &Turn) {
    let report = turn.report;
    let again = Report { flags: report.flags ^ ERR, timestamp: !report.timestamp, ..report };
    let turns = [report, again].map(|report| Turn { report, room: turn.room.clone() });
    let run = Run { table: table.to_vec(), turns: turns.to_vec() };
    for order in [[0, 1], [1, 0]] {
        let end = run.end(core, &order);
        let alone = run.end(core, &order[..1]);
        assert_eq!(alone.given[order[0]].0, Some(ACCEPTED));
        assert_eq!(end.given[order[0]], alone.given[order[0]]);
        let refused = (Some(Outcome { refusal: 5, written: 0 }), turn.room.clone());
        assert_eq!(end.given[order[1]], refused);
        assert_eq!(end.table, alone.table);
    }
}

/// What may not stand amid a run, nor be moved across a report of it.
#[test]
fn what_breaks_it() {
    for core in [&UnderTest::default() as &dyn Core, &OnWords(None)] {
        clear_in_between(core);
        eos_in_between(core);
        drained_across_a_finish(core);
    }
}

/// Each slip of order is told apart by two orders of its own, and the device without one is not;
/// nor are slips that show alike in any order.
#[test]
fn slips_of_order_are_caught() {
    let start = Instant::now();
    let alike = [
        Slip::FinishedIsCreated,
        Slip::InputTimestampOfReport,
        Slip::OutputTimestampOwn,
        Slip::ErrOfPlainType,
        Slip::BufferWithoutSize,
        Slip::RoomCleared,
    ];
    for slip in alike.map(Some).into_iter().chain([None]) {
        assert_eq!(told_apart(slip), None, "{slip:x?}");
    }
    let (slips, mut missed) = (order_slips::all(), Vec::new());
    for &slip in &slips {
        match told_apart(Some(slip)) {
            Some((table, what)) => println!("{slip:x?}: table {table}, {what}"),
            None => missed.push(slip),
        }
    }
    println!("{} slips, {:.1} s", slips.len(), start.elapsed().as_secs_f64());
    assert!(missed.is_empty(), "slips not caught: {missed:x?}");
}

/// The first table on which two orders of a run part, and where they do, for the independent device
/// with this slip alone.
fn told_apart(slip: Option<Slip>) -> Option<(u64, String)> {
    let mut generator = Generator::new(SEED);
    let core = OnWords(slip);
    (0..SLIP_TABLES).find_map(|table| {
        let run = any_run(&mut generator).1.accepted(&core);
        let orders = orders(&mut generator.rng, run.turns.len());
        Some((table, parts(&core, &run, &orders)?))
    })
}

/// What an accepted finish without EOS gives: the answer to its buffer.
const ACCEPTED: Outcome = Outcome { refusal: 0, written: 32 };

/// Finish reports of one stream, and the table that they are made on.
struct Run {
    table: Vec<u32>,
    turns: Vec<Turn>,
}

/// A report with its own room.
#[derive(Clone)]
struct Turn {
    report: Report,
    room: Room,
}

/// What comes of a run: what each report gives back and its room, by its place in the run whatever
/// the order was, and the table.
struct End {
    given: Vec<(Option<Outcome>, Room)>,
    table: Vec<u32>,
}

impl Run {
    /// The reports in this order, by their places in the run.
    fn end(&self, core: &dyn Core, order: &[usize]) -> End {
        let mut table = self.table.clone();
        let rooms = self.turns.iter().map(|turn| turn.room.clone());
        let mut given: Vec<(Option<Outcome>, Room)> = rooms.map(|room| (None, room)).collect();
        for &at in order {
            let (outcome, room) = &mut given[at];
            *outcome = Some(core.finish(&mut table, &self.turns[at].report, room.lent()));
        }
        End { given, table }
    }

    /// The reports that a core accepts in their turn, which for a slip need not be all.
    fn accepted(mut self, core: &dyn Core) -> Run {
        let mut table = self.table.clone();
        self.turns.retain(|turn| {
            core.finish(&mut table, &turn.report, turn.room.clone().lent()).refusal == 0
        });
        self
    }
}

impl End {
    /// Where another end is not the same.
    fn parts(&self, other: &End) -> Option<String> {
        for (at, (one, other)) in self.given.iter().zip(&other.given).enumerate() {
            if one.0 != other.0 {
                return Some(format!("report {at}: {:?} and {:?}", one.0, other.0));
            }
            if let Some(what) = difference("byte", &one.1.bytes, &other.1.bytes) {
                return Some(format!("report {at}: {what}"));
            }
        }
        difference("word", &self.table, &other.table)
    }
}

/// The property: where a run, whose reports are accepted one after the other in the first of these
/// orders, parts from itself in another.
fn parts(core: &dyn Core, run: &Run, orders: &[Vec<usize>]) -> Option<String> {
    let first = run.end(core, &orders[0]);
    let accepted = |outcome: Option<Outcome>| outcome.is_some_and(|outcome| outcome.refusal == 0);
    assert!(first.given.iter().all(|given| accepted(given.0)), "not a run of accepted reports");
    orders[1..].iter().find_map(|order| {
        let what = first.parts(&run.end(core, order))?;
        Some(format!("{what}, in turn and as {order:?}"))
    })
}

/// Where a run on a core parts from one on the independent device in one of these orders. Each
/// report is accepted, since each is on another Queued buffer.
fn parts_from_device(core: &dyn Core, run: &Run, orders: &[Vec<usize>]) -> Option<String> {
    orders.iter().find_map(|order| {
        let end = run.end(core, order);
        if end.given.iter().any(|given| given.0 != Some(ACCEPTED)) {
            return Some(format!("not accepted as {order:?}"));
        }
        let what = end.parts(&run.end(&OnWords(None), order))?;
        Some(format!("{what}, not as the independent device has it, as {order:?}"))
    })
}

/// Orders of so many reports: in turn, neighbours swapped (of a short run all, of a longer one
/// some), the reverse, and some at random.
fn orders(rng: &mut Rng, count: usize) -> Vec<Vec<usize>> {
    let in_turn: Vec<usize> = (0..count).collect();
    let mut orders = vec![in_turn.clone()];
    for at in 1..count {
        if count <= 8 || rng.below(count) < 4 {
            let mut order = in_turn.clone();
            order.swap(at - 1, at);
            orders.push(order);
        }
    }
    orders.push(in_turn.iter().rev().copied().collect());
    for _ in 0..3 {
        let mut order = in_turn.clone();
        rng.shuffle(&mut order);
        orders.push(order);
    }
    orders
}

/// The records of a random table, and finish reports without EOS of one of its streams, each on
/// another of its Queued buffers: at least two.
fn any_run(generator: &mut Generator) -> (Device, Run) {
    loop {
        let device = generator.lent();
        let streams: Vec<(u32, Vec<(u32, u32)>)> = device
            .streams()
            .map(|stream| (stream.number, queued(stream)))
            .filter(|(_, queued)| queued.len() >= 2)
            .collect();
        if streams.is_empty() {
            continue;
        }
        let (stream, buffers) = &streams[generator.rng.below(streams.len())];
        let turns = turns(generator, *stream, buffers.clone());
        let table = generator.table(&device);
        return (device, Run { table, turns });
    }
}

/// The queue type and number of each Queued buffer.
fn queued(stream: &Stream) -> Vec<(u32, u32)> {
    let of = |queue_type| {
        let queued = queue(stream, queue_type).resources.iter().flatten();
        queued.filter(|buffer| buffer.is_queued()).map(move |buffer| (queue_type, buffer.number))
    };
    of(INPUT).chain(of(OUTPUT)).collect()
}

/// Reports on some of these buffers in any order, and their rooms.
fn turns(generator: &mut Generator, stream: u32, mut buffers: Vec<(u32, u32)>) -> Vec<Turn> {
    let rng = &mut generator.rng;
    rng.shuffle(&mut buffers);
    let some = rng.within(2, buffers.len());
    buffers.truncate(rng.pick(&[2, some, buffers.len(), buffers.len()]));
    let err = rng.pick(&[0, 50, 50, 100]);
    let turn = |(queue_type, resource)| {
        let flags = if generator.rng.percent(err) { ERR } else { 0 };
        let timestamp = generator.timestamp();
        let report = Report { stream, queue_type, resource, flags, timestamp };
        Turn { report, room: Room::new(generator, false) }
    };
    buffers.into_iter().map(turn).collect()
}

/// Names of what is to be met, and whether it is.
type Names = Vec<(Why, bool)>;

/// What there is to be met with a run.
fn names(device: &Device, run: &Run) -> Names {
    let reports: Vec<Report> = run.turns.iter().map(|turn| turn.report).collect();
    let stream = device.stream(reports[0].stream).expect("a live stream");
    let rooms = || run.turns.iter().map(|turn| turn.room.clone().lent().len());
    let others = device.streams().count() > 1;
    let rest = vec![
        ("other live streams", others),
        ("no other live stream", !others),
        ("words behind the table", run.table.len() > WORDS),
        ("no words behind the table", run.table.len() == WORDS),
        ("a room of 1,056 bytes", rooms().any(|length| length == ROOM)),
        ("a longer room", rooms().any(|length| length > ROOM)),
    ];
    [names_of_reports(&reports), names_of_stream(stream, &reports), rest].concat()
}

fn names_of_reports(reports: &[Report]) -> Names {
    let numbers = |queue_type| {
        let of_queue = reports.iter().filter(move |report| report.queue_type == queue_type);
        of_queue.map(|report| report.resource)
    };
    let (inputs, outputs) = (numbers(INPUT).count(), numbers(OUTPUT).count());
    let on_both = numbers(INPUT).any(|input| numbers(OUTPUT).any(|output| input == output));
    let flagged = |flags| reports.iter().any(|report| report.flags == flags);
    let timed = |timestamp| reports.iter().any(|report| report.timestamp == timestamp);
    vec![
        ("inputs alone", outputs == 0),
        ("outputs alone", inputs == 0),
        ("both queues", inputs > 0 && outputs > 0),
        ("one number on both queues", on_both),
        ("ERR alone", !flagged(0)),
        ("no ERR", !flagged(ERR)),
        ("ERR and no ERR", flagged(ERR) && flagged(0)),
        ("2 reports", reports.len() == 2),
        ("16 reports or more", reports.len() >= 16),
        ("timestamps 0 and 2^64 - 1", timed(0) && timed(u64::MAX)),
    ]
}

fn names_of_stream(stream: &Stream, reports: &[Report]) -> Names {
    let draining = stream.drain.is_some();
    let left = stream.input.queued() + stream.output.queued() - reports.len();
    let both =
        [INPUT, OUTPUT].iter().all(|&of| reports.iter().any(|report| report.queue_type == of));
    let between = between(stream, reports);
    let has = |state| between.contains(&state);
    vec![
        ("a drain pending", draining),
        ("a drain pending, both queues", draining && both),
        ("a drain pending, nothing left Queued", draining && left == 0),
        ("a drain pending, 32 reports", draining && reports.len() == 32),
        ("no drain pending", !draining),
        ("no drain pending, both queues", !draining && both),
        ("no drain pending, 32 reports", !draining && reports.len() == 32),
        ("other buffers left Queued", left > 0),
        ("Created and Dequeued ones in between", has("Created") && has("Dequeued")),
        // No steps lead there, since all slots of a queue are freed together.
        ("free slots in between", has("free")),
    ]
}

/// The states of the slots between the first and the last buffer of these reports, in either queue.
fn between(stream: &Stream, reports: &[Report]) -> Vec<Why> {
    let mut states = Vec::new();
    for queue_type in [INPUT, OUTPUT] {
        let is_named = |slot: &Option<Resource>| {
            let named = |report: &Report, number| {
                (report.queue_type, report.resource) == (queue_type, number)
            };
            slot.is_some_and(|slot| reports.iter().any(|report| named(report, slot.number)))
        };
        let slots = &queue(stream, queue_type).resources;
        let ends = (slots.iter().position(is_named), slots.iter().rposition(is_named));
        if let (Some(first), Some(last)) = ends {
            let state = |slot: &Option<Resource>| slot.map_or("free", |slot| slot.state.name());
            states.extend(slots[first..last].iter().map(state));
        }
    }
    states
}

/// What a step of an example gives: the words of its answers, or its refusal.
type Given = Result<Vec<u32>, u32>;

/// Two steps in one order and in the other, after steps of stream 7 that lead to their table. Each
/// order comes with what is expected of the two and of the table at the end.
fn in_both_orders(
    core: &dyn Core,
    before: &[Act],
    steps: [&Act; 2],
    expected: [([Given; 2], Vec<u32>); 2],
) {
    let mut start = vec![0; WORDS];
    for act in before {
        assert!(given(core, &mut start, act).is_ok());
    }
    let [one, other] = steps;
    for (order, (answers, left)) in [[one, other], [other, one]].into_iter().zip(expected) {
        let mut table = start.clone();
        assert_eq!(order.map(|act| given(core, &mut table, act)), answers);
        assert_eq!(table, left);
    }
}

fn given(core: &dyn Core, table: &mut [u32], act: &Act) -> Given {
    let mut room = [0xee; ROOM];
    let Outcome { refusal, written } = core.step(table, act, &mut room);
    let (answers, rest) = room.split_at(written as usize);
    assert!(rest.iter().all(|&byte| byte == 0xee));
    if refusal != 0 {
        assert_eq!(written, 0);
        return Err(refusal);
    }
    Ok(answers.chunks(4).map(|bytes| word(bytes, 0)).collect())
}

/// The table of stream 7 alone, with the words of its drain, of the first slot of either queue, and
/// so many answers pending.
fn table_of_7(drain: [u32; 2], input: [u32; 5], output: [u32; 5], pending: u32) -> Vec<u32> {
    let mut table = vec![0; WORDS];
    table[..3].copy_from_slice(&[1, 7, 0x1000]);
    table[3..5].copy_from_slice(&drain);
    table[8..12].copy_from_slice(&[0, 640, 480, 0]);
    table[12..17].copy_from_slice(&input);
    table[92..96].copy_from_slice(&[0, 640, 480, 0]);
    table[96..101].copy_from_slice(&output);
    table[4096] = 1 << 7;
    table[4129] = pending;
    table[4130] = 7 + 1;
    table[4138] = pending;
    table
}

const FREE: [u32; 5] = [0; 5];
const DEQUEUED: [u32; 5] = [3, 1, 0, 0, 0];
/// Output 1, Queued under ticket 4 with timestamp 8.
const OUTPUT_QUEUED: [u32; 5] = [2, 1, 4, 8, 0];

/// The answer to input 1, Queued under ticket 3 with timestamp 8.
const INPUT_FINISHED: [u32; 8] = [3, 24, 0x0202, 7, 8, 0, 0, 0];

/// The answer to output 1, with the timestamp of the report.
fn output_finished(flags: u32) -> [u32; 8] {
    [4, 24, 0x0202, 7, 9, 0, flags, 0]
}

/// A finish that comes behind a clear of its queue is refused: the clear has answered its buffer,
/// with ERR and its own timestamp. The table is the same, but not what the guest gets.
fn clear_in_between(core: &dyn Core) {
    let before = [by_hand::create(), by_hand::import(OUTPUT), by_hand::queue(OUTPUT)];
    let clear = by_hand::told(5, frames::on_queue(QUEUE_CLEAR, 7, OUTPUT));
    let cleared = [5, 8, 0x0200, 7];
    let stopped = [4, 24, 0x0202, 7, 8, 0, 1, 0];
    let left = table_of_7([0, 0], FREE, DEQUEUED, 0);
    in_both_orders(
        core,
        &before,
        [&by_hand::finish(OUTPUT, 0), &clear],
        [
            ([Ok(output_finished(0).to_vec()), Ok(cleared.to_vec())], left.clone()),
            ([Ok([&stopped[..], &cleared].concat()), Err(5)], left),
        ],
    );
}

/// A finish with EOS answers its buffer and then the drain. It is refused where it comes before
/// that of the last input, and then output and drain are left pending. Without EOS the two may be
/// swapped.
fn eos_in_between(core: &dyn Core) {
    let before = [
        by_hand::create(),
        by_hand::import(INPUT),
        by_hand::import(OUTPUT),
        by_hand::queue(INPUT),
        by_hand::queue(OUTPUT),
        by_hand::drain(5),
    ];
    let input = by_hand::finish(INPUT, 0);
    let input_finished = || Ok(INPUT_FINISHED.to_vec());
    let drained = [5, 8, 0x0200, 7];
    for flags in [2, 3] {
        let both = [&output_finished(flags)[..], &drained].concat();
        let early = table_of_7([1, 5], DEQUEUED, OUTPUT_QUEUED, 2);
        in_both_orders(
            core,
            &before,
            [&input, &by_hand::finish(OUTPUT, flags)],
            [
                ([input_finished(), Ok(both)], table_of_7([0, 0], DEQUEUED, DEQUEUED, 0)),
                ([Err(5), input_finished()], early),
            ],
        );
    }
    for flags in [0, 1] {
        let finished = || Ok(output_finished(flags).to_vec());
        let left = table_of_7([1, 5], DEQUEUED, DEQUEUED, 1);
        in_both_orders(
            core,
            &before,
            [&input, &by_hand::finish(OUTPUT, flags)],
            [
                ([input_finished(), finished()], left.clone()),
                ([finished(), input_finished()], left),
            ],
        );
    }
}

/// A drained report, of a stream without outputs, is refused where it comes before the finish of
/// the last input, and then the drain is left pending.
fn drained_across_a_finish(core: &dyn Core) {
    let before =
        [by_hand::create(), by_hand::import(INPUT), by_hand::queue(INPUT), by_hand::drain(5)];
    let input_finished = || Ok(INPUT_FINISHED.to_vec());
    in_both_orders(
        core,
        &before,
        [&by_hand::finish(INPUT, 0), &by_hand::drained()],
        [
            ([input_finished(), Ok(vec![5, 8, 0x0200, 7])], table_of_7([0, 0], DEQUEUED, FREE, 0)),
            ([Err(5), input_finished()], table_of_7([1, 5], DEQUEUED, FREE, 1)),
        ],
    );
}
