//! The core compared with the independent device: each result, each byte of the room and each word
//! of the table, on seeded random steps, on each stream number and on tables with each word made
//! wrong; and what is said of pending answers, on all of these and on any figures. `STEPS` sets the
//! number of random steps, `SEED` the first seed.

mod independent;

use std::collections::{BTreeMap, BTreeSet};
use std::fmt;
use std::time::Instant;

use independent::coverage::{name, Coverage, TABLE_NOT_VALID, TABLE_SHORT};
use independent::device::*;
use independent::frames;
use independent::layout::{
    self, Broken, BLOCK, DRAIN_AT, FIGURES_AT, INPUT_AT, MARKS_AT, OUTPUT_AT, SPENT_AT, SPENT_END,
    TOTAL_AT, UNUSED_AT, WORDS,
};
use independent::lent::{difference, Room};
use independent::on_words::{Core, OnWords, Outcome};
use independent::pending::{by_records, by_words, Book, Question};
use independent::pending_slips;
use independent::random::{full, Generator, Rng, ODD_WORDS};
use independent::random_figures::{all_questions, questions};
use independent::slips::{self, Slip};
use independent::UnderTest;

/// Random steps of a run, and of one seed in it.
const STEPS: u64 = 300_000;
const STEPS_OF_A_SEED: u64 = 30_000;
const SEED: u64 = 1;
/// Tables of any figures that questions are asked of.
const ASKED_TABLES: u64 = 100_000;

#[test]
fn random_steps_agree() {
    let (seed, steps) = (variable("SEED", SEED), variable("STEPS", STEPS));
    let start = Instant::now();
    let mut coverage = Coverage::default();
    if let Err(mismatch) = compare_steps(&UnderTest::default(), seed, steps, &mut coverage) {
        panic!("{mismatch}");
    }
    let last = seed + steps.div_ceil(STEPS_OF_A_SEED) - 1;
    println!("seeds {seed} to {last}, {:.1} s", start.elapsed().as_secs_f64());
    println!("{coverage}");
    // A shorter run need not get everywhere.
    if steps >= STEPS {
        let complaints = coverage.complaints(20);
        assert!(complaints.is_empty(), "too little was met:\n{}", complaints.join("\n"));
    }
}

#[test]
fn each_word_made_wrong() {
    let start = Instant::now();
    match compare_tables(&UnderTest::default(), variable("SEED", SEED)) {
        Err(mismatch) => panic!("{mismatch}"),
        Ok(probes) => println!("{probes} tables, {:.1} s", start.elapsed().as_secs_f64()),
    }
}

#[test]
fn each_number_is_spent_once() {
    let start = Instant::now();
    match compare_numbers(&UnderTest::default()) {
        Err(mismatch) => panic!("{mismatch}"),
        Ok(steps) => println!("{steps} steps, {:.1} s", start.elapsed().as_secs_f64()),
    }
}

#[test]
fn questions_agree() {
    let start = Instant::now();
    match compare_questions(&UnderTest::default(), variable("SEED", SEED), ASKED_TABLES) {
        Err(mismatch) => panic!("{mismatch}"),
        Ok(count) => println!(
            "{count} questions, {ASKED_TABLES} tables, {:.1} s",
            start.elapsed().as_secs_f64()
        ),
    }
}

/// Condition 3 covers a stream's figure: after a list of steps from a fresh table it is the one that
/// the stream's own steps come to alone. The word count and the total are not covered.
#[test]
fn figures_are_those_of_the_alone_run() {
    let core = UnderTest::default();
    let (mut streams, mut pending) = (0, 0);
    for seed in SEED..SEED + 100 {
        let (table, own_steps) = list_of_steps(&core, seed);
        for (&stream, steps) in &own_steps {
            let mut alone = vec![0; WORDS];
            for act in steps {
                core.step(&mut alone, act, &mut [0; ROOM]);
            }
            let [among, alone] =
                [&table, &alone].map(|table| core.pending_of_stream(table, stream).pending);
            assert_eq!(among, alone, "seed {seed}, stream {stream}");
            streams += 1;
            pending += among;
        }
    }
    println!("{streams} streams, {pending} answers pending");
    assert!(pending > 500, "too little is pending at the end of the lists");
}

/// Random steps from a fresh table: the table that they leave, and the steps of each stream but for
/// those whose creation found no place.
fn list_of_steps(core: &impl Core, seed: u64) -> (Vec<u32>, BTreeMap<u32, Vec<Act>>) {
    let mut generator = Generator::new(seed);
    let (mut device, mut table) = (Device::default(), vec![0; WORDS]);
    let (mut own_steps, mut crowded) = (BTreeMap::<u32, Vec<Act>>::new(), BTreeSet::new());
    for _ in 0..generator.rng.within(50, 1000) {
        let act = generator.act(&device);
        let why = device.step(&act, ROOM).why;
        core.step(&mut table, &act, &mut [0; ROOM]);
        let Some(stream) = act.stream() else { continue };
        if act.kind_and_queue().0 == STREAM_CREATE && why == Some("no place") {
            crowded.insert(stream);
        }
        own_steps.entry(stream).or_default().push(act);
    }
    own_steps.retain(|stream, _| !crowded.contains(stream));
    (table, own_steps)
}

/// The independent device's words are read back as the records they were written from, and give the
/// figures that are got by going through these.
#[test]
fn layout_goes_round() {
    let mut generator = Generator::new(7);
    for _ in 0..2000 {
        let device = generator.lent();
        let table = generator.table(&device);
        for question in all_questions(&table) {
            assert_eq!(by_words(&table, question), by_records(&device, question), "{question:?}");
        }
        assert_eq!(layout::read(&table[..WORDS], None), Ok(device));
    }
}

/// Each slip of the independent device is caught by the same comparison, but for those that remember
/// more than a table holds, and the device without one passes it.
#[test]
fn slips_are_caught() {
    let (seed, steps) = (variable("SEED", SEED), STEPS);
    let start = Instant::now();
    if let Err(mismatch) = compare_steps(&OnWords(None), seed, steps / 3, &mut Coverage::default())
    {
        panic!("without a slip: {mismatch}");
    }
    let mut missed = Vec::new();
    let slips = slips::all();
    let (remembering, slips): (Vec<_>, Vec<_>) =
        slips.into_iter().partition(|slip| slip.remembers());
    for &slip in &slips {
        match compare_steps(&OnWords(Some(slip)), seed, steps, &mut Coverage::default()) {
            Err(mismatch) => {
                println!("{slip:x?}: step {}, {}", mismatch.step_of_run, mismatch.what)
            }
            Ok(()) => missed.push(format!("{slip:x?}")),
        }
    }
    let (count, left_out) = (slips.len(), remembering.len());
    println!("{count} slips, {left_out} left out, {:.1} s", start.elapsed().as_secs_f64());
    assert!(missed.is_empty(), "slips not caught:\n{}", missed.join("\n"));
}

/// Each slip of the questions is caught on any figures, and the device without one passes.
#[test]
fn slips_of_questions_are_caught() {
    let compare = |slip| compare_questions(&OnWords(slip), SEED, ASKED_TABLES / 10);
    if let Err(mismatch) = compare(None) {
        panic!("without a slip: {mismatch}");
    }
    let slips = pending_slips::of_questions().into_iter().map(Slip::Pending);
    let slips: Vec<Slip> = slips.chain(slips::of_short_questions()).collect();
    let missed: Vec<&Slip> = slips.iter().filter(|&&slip| compare(Some(slip)).is_ok()).collect();
    println!("{} slips", slips.len());
    assert!(missed.is_empty(), "slips not caught: {missed:x?}");
}

/// Where a core and the independent device part.
struct Mismatch {
    seed: u64,
    step: u64,
    step_of_run: u64,
    act: String,
    what: String,
}

impl fmt::Display for Mismatch {
    fn fmt(&self, out: &mut fmt::Formatter) -> fmt::Result {
        let Mismatch { seed, step, act, what, .. } = self;
        writeln!(out, "seed {seed}, step {step}: {act}")?;
        writeln!(out, "{what}")?;
        write!(out, "again with SEED={seed} STEPS={step}")
    }
}

/// Random steps on the core and on the independent device, by as many seeds as it takes.
fn compare_steps(
    core: &impl Core,
    seed: u64,
    steps: u64,
    coverage: &mut Coverage,
) -> Result<(), Mismatch> {
    let mut done = 0;
    for seed in seed.. {
        if done >= steps {
            break;
        }
        let now = STEPS_OF_A_SEED.min(steps - done);
        let mut run = Run::new(core, seed, coverage, done);
        while run.step < now {
            run.table_of_its_own(now)?;
        }
        done += now;
    }
    Ok(())
}

/// The run of one seed.
struct Run<'r, C> {
    core: &'r C,
    generator: Generator,
    coverage: &'r mut Coverage,
    seed: u64,
    /// Steps of this seed, and of the seeds before it.
    step: u64,
    done: u64,
    /// What is pending on the table at hand.
    book: Book,
    /// The questions have numbers of their own, so that they do not change the steps.
    asking: Rng,
}

impl<'r, C: Core> Run<'r, C> {
    fn new(core: &'r C, seed: u64, coverage: &'r mut Coverage, done: u64) -> Run<'r, C> {
        let (generator, asking) = (Generator::new(seed), Rng::new(!seed));
        Run { core, generator, coverage, seed, step: 0, done, book: Book::default(), asking }
    }

    /// Some hundred steps on one table, which is made fresh or lent with records in it. The
    /// independent side keeps the records themselves from step to step.
    fn table_of_its_own(&mut self, last: u64) -> Result<(), Mismatch> {
        let mut device = Device::default();
        let mut table = self.fresh()?;
        if self.generator.rng.percent(50) {
            device = self.generator.lent();
            table = self.generator.table(&device);
        }
        self.start_table(&Spent::default(), &device);
        let steps = self.generator.rng.within(100, 1500) as u64;
        let end = last.min(self.step + steps);
        while self.step < end || self.step < last && self.generator.has_plan() {
            // With no stream and no number left there is little to meet.
            let over = device.spent.count() == NUMBERS && device.streams().next().is_none();
            if self.generator.rng.below(if over { 20 } else { 500 }) == 0 {
                self.fresh_again(&mut table, &mut device)?;
            }
            let act = self.generator.act(&device);
            let edge = self.generator.edge;
            // Reports are rarer than commands.
            let odd = if matches!(act, Act::Command { .. }) { 12 } else { 25 };
            if self.generator.rng.percent(odd) {
                self.odd_step(&table, &device, &act)?;
            }
            self.step(&mut table, &mut device, &act, edge)?;
        }
        Ok(())
    }

    /// Another table, or the same one made fresh after these numbers were spent, with these records.
    fn start_table(&mut self, forgotten: &Spent, device: &Device) {
        self.book = Book::of(device);
        self.generator.start_anew(forgotten);
        self.coverage.start_table(forgotten.clone());
    }

    /// Makes a table of any words fresh, and one that is too short.
    fn fresh(&mut self) -> Result<Vec<u32>, Mismatch> {
        let mut short = self.generator.garbage_table(false);
        self.make_fresh(&mut short)?;
        let mut table = self.generator.garbage_table(true);
        self.make_fresh(&mut table)?;
        Ok(table)
    }

    /// Makes the table fresh amid its steps, and a part of it that is too short: with the records
    /// the spent numbers are forgotten.
    fn fresh_again(&mut self, table: &mut [u32], device: &mut Device) -> Result<(), Mismatch> {
        let part = self.generator.short_length();
        self.make_fresh(&mut table[..part])?;
        self.make_fresh(table)?;
        let before = std::mem::take(device);
        self.start_table(&before.spent, device);
        Ok(())
    }

    /// Makes a table fresh, if it has enough words.
    fn make_fresh(&mut self, table: &mut [u32]) -> Result<(), Mismatch> {
        let enough = table.len() >= WORDS;
        let mut expected = table.to_vec();
        if enough {
            expected[..WORDS].fill(0);
        }
        let result = self.core.fresh(table);
        self.step += 1;
        self.coverage.steps += 1;
        self.coverage.count_length(FRESH, table.len());
        if result != u32::from(!enough) {
            let what = format!("result {result} with {} words", table.len());
            return Err(self.mismatch(&"fresh", what));
        }
        match difference("word", table, &expected) {
            Some(what) => Err(self.mismatch(&"fresh", what)),
            None => Ok(()),
        }
    }

    /// A number is created twice, destroyed, created once more and then reported as drained.
    fn life(
        &mut self,
        table: &mut [u32],
        device: &mut Device,
        number: u32,
    ) -> Result<(), Mismatch> {
        let create = frames::stream_create(number, 0x1002, b"life");
        let destroy = frames::frame(STREAM_DESTROY, number, 8);
        for frame in [create.clone(), create.clone(), destroy, create] {
            self.step(table, device, &Act::Command { ticket: number, frame }, None)?;
        }
        self.step(table, device, &Act::Drained { stream: number }, None)
    }

    /// One step with all that it needs.
    fn step(
        &mut self,
        table: &mut [u32],
        device: &mut Device,
        act: &Act,
        edge: Option<&'static str>,
    ) -> Result<(), Mismatch> {
        let mut room = Room::new(&mut self.generator, false);
        let before = device.clone();
        let done = self.compare(table, Some(device), act, &mut room)?;
        self.coverage.count(act, &done, edge);
        self.coverage.count_before(&before, act, &done);
        self.coverage.count_depth(device, &done.written, table.len());
        self.book.note(act, &done);
        self.ask_by_book(table, act)
    }

    /// The step on a copy of the table that is cut short or spoiled (and may then still be valid), or
    /// with a room that is too short, or with more than one of these.
    fn odd_step(&mut self, table: &[u32], device: &Device, act: &Act) -> Result<(), Mismatch> {
        let rng = &mut self.generator.rng;
        let (cut, spoiled, short) = (rng.percent(25), rng.percent(60), rng.percent(40));
        let mut table = table.to_vec();
        let mut device = Some(device.clone());
        let mut edge = None;
        if spoiled {
            edge = self.generator.spoil(&mut table);
            device = layout::read(&table[..WORDS], None).ok();
        }
        if cut {
            table.truncate(self.generator.short_length());
        }
        let mut room = Room::new(&mut self.generator, short);
        let done = self.compare(&mut table, device.as_mut(), act, &mut room)?;
        self.coverage.count(act, &done, edge);
        Ok(())
    }

    /// The step on both sides: result, room and table have to be the same, and what is said of pending
    /// answers after it. `device` are the table's records, if it is valid.
    fn compare(
        &mut self,
        table: &mut [u32],
        mut device: Option<&mut Device>,
        act: &Act,
        room: &mut Room,
    ) -> Result<Done, Mismatch> {
        let mut expected_table = table.to_vec();
        let mut expected_room = room.bytes.clone();
        let done = expect(&mut expected_table, device.as_deref_mut(), act, room.lent().len());
        expected_room[room.start..][..done.written.len()].copy_from_slice(&done.written);

        let outcome = self.core.step(table, act, room.lent());
        self.step += 1;
        self.coverage.count_length(act.kind(), table.len());

        let expected = Outcome { refusal: done.refusal, written: done.written.len() as u32 };
        if outcome != expected {
            let why = done.why.unwrap_or("accepted");
            return Err(self.mismatch(act, format!("{outcome:?}, expected {expected:?} ({why})")));
        }
        if let Some(what) = difference("byte", &room.bytes, &expected_room) {
            return Err(self.mismatch(act, format!("{what} (the room starts at {})", room.start)));
        }
        if let Some(what) = difference("word", table, &expected_table) {
            return Err(self.mismatch(act, what));
        }
        self.ask(table, &expected_table, device.as_deref(), act)?;
        Ok(done)
    }

    /// Asks some questions of the core's table after a step, and of `expected`, the independent
    /// device's. `device` are its records, if it is valid. The core's table has to stay.
    fn ask(
        &mut self,
        table: &[u32],
        expected: &[u32],
        device: Option<&Device>,
        act: &Act,
    ) -> Result<(), Mismatch> {
        let device = device.filter(|_| expected.len() >= WORDS);
        for question in questions(&mut self.asking, expected, act) {
            self.coverage.count_question(expected, device, question);
            if let Some(what) = ask(self.core, table, expected, device, question) {
                return Err(self.mismatch(act, what));
            }
        }
        match difference("word", table, expected) {
            Some(what) => Err(self.mismatch(&"questions", what)),
            None => Ok(()),
        }
    }

    /// After a step, the total and the figure of its stream are those of the book.
    fn ask_by_book(&mut self, table: &[u32], act: &Act) -> Result<(), Mismatch> {
        let own = act.stream().map(Question::OfStream);
        for question in own.into_iter().chain([Question::InAll]) {
            let (said, figure) = (self.core.ask(table, question), self.book.figure(question));
            if said.pending != figure {
                let what = format!("{question:x?}: {said:?}, by the book {figure}");
                return Err(self.mismatch(act, what));
            }
        }
        Ok(())
    }

    fn mismatch(&self, act: &impl fmt::Debug, what: String) -> Mismatch {
        Mismatch {
            seed: self.seed,
            step: self.step,
            step_of_run: self.done + self.step,
            act: format!("{act:x?}"),
            what,
        }
    }
}

/// What is wrong with the answer to a question: it is not that of these words, or not that of the
/// table's records, if it is valid.
fn ask(
    core: &impl Core,
    table: &[u32],
    words: &[u32],
    device: Option<&Device>,
    question: Question,
) -> Option<String> {
    let said = core.ask(table, question);
    let by_records = device.map(|device| by_records(device, question));
    let expected = [Some(by_words(words, question)), by_records];
    let wrong = expected.into_iter().flatten().find(|&expected| expected != said)?;
    Some(format!("{question:x?}: {said:?}, expected {wrong:?}"))
}

/// What the step is to come to with so much room, made on this copy of the table.
fn expect(table: &mut [u32], device: Option<&mut Device>, act: &Act, room: usize) -> Done {
    if table.len() < WORDS {
        return Done::refused(1, TABLE_SHORT);
    }
    let Some(device) = device else {
        return match room {
            ROOM.. => Done::refused(2, TABLE_NOT_VALID),
            _ => Done::refused(3, "answer buffer under 1,056 bytes"),
        };
    };
    let done = device.step(act, room);
    if done.refusal == 0 {
        layout::write(device, &mut table[..WORDS]);
    }
    done
}

/// Each stream number, and some that none can be, on a table where it alone is spent, and on one
/// where all but it are. Returns the number of steps.
fn compare_numbers(core: &impl Core) -> Result<u64, Mismatch> {
    let mut coverage = Coverage::default();
    let mut run = Run::new(core, SEED, &mut coverage, 0);
    for number in (0..1100).chain([2047, 2048, 0x0001_0005, 0x8000_0005, u32::MAX]) {
        for alone in [true, false] {
            let mut device = Device::default();
            device.spent.extend(numbers().filter(|&other| (other == number) == alone));
            run.book = Book::of(&device);
            let mut table = run.generator.table(&device);
            run.life(&mut table, &mut device, number)?;
        }
    }
    Ok(run.step)
}

/// Questions on tables of any figures and of each length beside an edge: many questions for each.
/// Returns their number.
fn compare_questions(core: &impl Core, seed: u64, tables: u64) -> Result<u64, Mismatch> {
    let lengths = [WORDS, WORDS, WORDS, WORDS + 1, WORDS + 600, WORDS - 1, UNUSED_AT, MARKS_AT, 0];
    let mut generator = Generator::new(seed);
    let (mut count, mut table) = (0, Vec::new());
    for step in 0..tables {
        if step % 100 == 0 {
            let device = generator.lent();
            table = generator.table(&device);
            table.resize(WORDS + 600, generator.rng.word());
        }
        generator.any_figures(&mut table);
        let lent = &table[..generator.rng.pick(&lengths)];
        let before = lent.to_vec();
        for question in all_questions(&table) {
            count += 1;
            let wrong = ask(core, lent, &before, None, question);
            if let Some(what) = wrong.or_else(|| difference("word", lent, &before)) {
                let act = format!("{} words, {:x?}", lent.len(), &table[SPENT_END..UNUSED_AT]);
                return Err(Mismatch { seed, step, step_of_run: step, act, what });
            }
        }
    }
    Ok(count)
}

/// Each of the 4,160 words of some valid tables set to each odd word and some more, and where the
/// figures of pending answers follow from it, the same with these following: the core takes the table
/// exactly where the rules of docs/LAYOUT.md do. Returns the number of tables tried.
fn compare_tables(core: &impl Core, seed: u64) -> Result<u64, Mismatch> {
    let (rules, met) = (BTreeSet::new(), BTreeSet::new());
    let mut probes = Probes { core, seed, rng: Rng::new(seed), count: 0, rules, met };
    for device in tables_to_spoil(seed) {
        probes.each_word(&device)?;
    }
    probes.all_met();
    Ok(probes.count)
}

/// Tables with one word made wrong.
struct Probes<'p, C> {
    core: &'p C,
    seed: u64,
    rng: Rng,
    count: u64,
    /// The rules that were broken.
    rules: BTreeSet<Broken>,
    /// The ways in which some of them were, each with the kind of step that the table was lent to.
    met: BTreeSet<(Way, u32)>,
}

/// A way to break a rule, where it is to be broken in each of several ways, or to keep to it.
#[derive(Clone, Copy, Debug, PartialEq, Eq, PartialOrd, Ord)]
enum Way {
    /// The drain's word of a live stream has this value.
    DrainWord(u32),
    /// The same, and the table is good.
    GoodDrainWord(u32),
    /// A ticket stands with no drain owed, since this word of its block was changed.
    DrainTicket(usize),
    /// Word 0 of a queue, which stands here in its block, has this value.
    QueueHead(usize, u32),
    /// This word without use is not zero.
    Unused(usize),
    /// This word of the figures of pending answers is changed so.
    Figure(usize, Change),
    /// The bit of a live number is dropped.
    BitDropped,
    /// A live number is changed to one of at most 1,023 that is not spent.
    LowNumber,
    /// A live number is changed to one above 1,023.
    HighNumber,
}

/// How a word of the figures of pending answers is changed.
#[derive(Clone, Copy, Debug, PartialEq, Eq, PartialOrd, Ord)]
enum Change {
    Zero,
    OneMore,
    OneLess,
    /// A mark or figure to that of another place, the total to a figure.
    Anothers,
    Highest,
}

impl Change {
    /// The changes of a word from what was kept there, each with the value that it makes.
    fn all(table: &[u32], at: usize, kept: u32) -> Vec<(Change, u32)> {
        let alike = if (MARKS_AT..FIGURES_AT).contains(&at) { MARKS_AT } else { FIGURES_AT };
        let others = (alike..alike + PLACES).filter(|&other| other != at);
        let others = others.map(|other| (Change::Anothers, table[other]));
        let changes = [
            (Change::Zero, 0),
            (Change::OneMore, kept.wrapping_add(1)),
            (Change::OneLess, kept.wrapping_sub(1)),
            (Change::Highest, u32::MAX),
        ];
        changes.into_iter().chain(others).collect()
    }
}

impl Way {
    /// The way in which setting a word to a value breaks a rule, if that is to be told apart.
    fn of(rule: Broken, at: usize, value: u32) -> Option<Way> {
        match rule {
            Broken::Drain => Some(Way::DrainWord(value)),
            Broken::DrainTicket => Some(Way::DrainTicket(at % BLOCK)),
            Broken::QueueHead => Some(Way::QueueHead(at % BLOCK, value)),
            Broken::Unused => Some(Way::Unused(at)),
            Broken::NotSpent if at >= SPENT_AT => Some(Way::BitDropped),
            Broken::NotSpent if value < NUMBERS as u32 => Some(Way::LowNumber),
            Broken::NotSpent => Some(Way::HighNumber),
            _ => None,
        }
    }

    /// The way in which setting a word to a value leaves a table good, if that is to be told apart.
    fn good(at: usize, value: u32) -> Option<Way> {
        (at < SPENT_AT && at % BLOCK == DRAIN_AT).then_some(Way::GoodDrainWord(value))
    }

    /// The ways to be met by each kind of step.
    fn wanted() -> impl Iterator<Item = Way> {
        let good = [0, 1].map(Way::GoodDrainWord);
        let bad = [2, 3, 0x0001_0001, u32::MAX].map(Way::DrainWord);
        let tickets = [DRAIN_AT, DRAIN_AT + 1].map(Way::DrainTicket);
        let drains = good.into_iter().chain(bad).chain(tickets);
        let heads = [INPUT_AT, OUTPUT_AT]
            .into_iter()
            .flat_map(|at| [1, 2, u32::MAX].map(|value| Way::QueueHead(at, value)));
        let unused = (UNUSED_AT..WORDS).chain([SPENT_END]).map(Way::Unused);
        let numbers = [Way::BitDropped, Way::LowNumber, Way::HighNumber];
        let changes =
            [Change::Zero, Change::OneMore, Change::OneLess, Change::Anothers, Change::Highest];
        let figures =
            (TOTAL_AT..UNUSED_AT).flat_map(move |at| changes.map(|change| Way::Figure(at, change)));
        drains.chain(heads).chain(unused).chain(numbers).chain(figures)
    }
}

impl<C: Core> Probes<'_, C> {
    /// Sets each word of the table of these records to one value after another.
    fn each_word(&mut self, device: &Device) -> Result<(), Mismatch> {
        let mut table = vec![0; WORDS];
        layout::write(device, &mut table);
        let mut refused = vec![true; WORDS];
        for at in 0..WORDS {
            let kept = table[at];
            for (turn, value) in self.values(&table, at).into_iter().enumerate() {
                if value == kept {
                    continue;
                }
                table[at] = value;
                // Over the places, each value of a block's word meets each kind of step.
                let kind = (turn + at / BLOCK) % 3;
                let kinds = if at < SPENT_END { &KINDS[kind..=kind] } else { &KINDS };
                for &kind in kinds {
                    refused[at] &= self.refuses(&table, at, kept, kind)?;
                }
            }
            table[at] = kept;
        }
        let unused = layout::without_use(device);
        assert!(unused.iter().all(|&at| refused[at]), "a word without use was taken");
        let figures = &refused[TOTAL_AT..UNUSED_AT];
        assert!(figures.iter().all(|&refused| refused), "a figure that does not follow was taken");
        if device.streams().next().is_none() {
            assert!(!refused[SPENT_AT..SPENT_END].contains(&true), "any numbers may be spent");
        }
        Ok(())
    }

    /// The values that a word is set to.
    fn values(&mut self, table: &[u32], at: usize) -> Vec<u32> {
        let kept = table[at];
        let more = [
            0x0001_0001,
            0x8000_0002,
            self.rng.word() | 1,
            kept ^ 1 << self.rng.below(32),
            kept.wrapping_add(1024),
            table[self.rng.below(WORDS)],
        ];
        let mut values = [&ODD_WORDS[..], &more].concat();
        if at >= SPENT_END {
            values.extend(Change::all(table, at, kept).into_iter().map(|change| change.1));
        }
        values
    }

    /// Whether a table in which this word was changed is refused, also with the figures of pending
    /// answers following, if they do.
    fn refuses(
        &mut self,
        table: &[u32],
        at: usize,
        kept: u32,
        kind: u32,
    ) -> Result<bool, Mismatch> {
        let refused = self.refuses_words(table, at, kept, kind)?;
        if at >= SPENT_AT || table[TOTAL_AT..UNUSED_AT] == layout::settled(table) {
            return Ok(refused);
        }
        let mut follows = table.to_vec();
        layout::settle(&mut follows);
        Ok(self.refuses_words(&follows, at, kept, kind)? && refused)
    }

    /// Whether these words are refused, and notes what was met with them.
    fn refuses_words(
        &mut self,
        table: &[u32],
        at: usize,
        kept: u32,
        kind: u32,
    ) -> Result<bool, Mismatch> {
        let value = table[at];
        let read = self.lend(table, at, kind)?;
        let ways = match read {
            Ok(_) => Vec::from_iter(Way::good(at, value)),
            Err(Broken::Total | Broken::Mark | Broken::Figure) if at >= SPENT_END => {
                let changes = Change::all(table, at, kept).into_iter();
                changes
                    .filter(|change| change.1 == value)
                    .map(|change| Way::Figure(at, change.0))
                    .collect()
            }
            Err(rule) => Vec::from_iter(Way::of(rule, at, value)),
        };
        self.rules.extend(read.as_ref().err());
        self.met.extend(ways.into_iter().map(|way| (way, kind)));
        Ok(read.is_err())
    }

    /// Lends a table in which this word was changed, to a step that is refused anyway, and asks for
    /// pending answers. Returns what the table stands for.
    fn lend(
        &mut self,
        table: &[u32],
        at: usize,
        kind: u32,
    ) -> Result<Result<Device, Broken>, Mismatch> {
        let read = layout::read(table, None);
        self.count += 1;
        let (act, otherwise) = refused_anyway(kind);
        let expected = Outcome { refusal: if read.is_ok() { otherwise } else { 2 }, written: 0 };
        let mut lent = table.to_vec();
        let mut room = [0xa5; ROOM];
        let outcome = self.core.step(&mut lent, &act, &mut room);
        let mark = table[MARKS_AT + self.count as usize % PLACES];
        let numbers = [mark, table[at]].map(|mark| Question::OfStream(mark.wrapping_sub(1)));
        let wrong = numbers
            .into_iter()
            .chain([Question::InAll])
            .find_map(|question| ask(self.core, &lent, table, read.as_ref().ok(), question));
        let unchanged = lent == table && room == [0xa5; ROOM];
        if outcome == expected && wrong.is_none() && unchanged {
            return Ok(read);
        }
        Err(Mismatch {
            seed: self.seed,
            step: self.count,
            step_of_run: self.count,
            act: format!("word {at} set to {:#x}, {act:x?}", table[at]),
            what: format!(
                "{outcome:?}, expected {expected:?} ({:?}), {wrong:?}, unchanged {unchanged}",
                read.map(|_| "valid")
            ),
        })
    }

    /// Each rule was broken, and some of them in each way by each kind of step.
    fn all_met(&self) {
        assert!(self.rules.iter().eq(&Broken::ALL), "only these were broken: {:?}", self.rules);
        for way in Way::wanted() {
            for kind in KINDS {
                assert!(self.met.contains(&(way, kind)), "{way:?} was not met by {}", name(kind));
            }
        }
    }
}

/// The kinds of step that test a table.
const KINDS: [u32; 3] = [COMMAND, FINISH, DRAINED];

/// A step of this kind, and the refusal that it meets on a valid table.
fn refused_anyway(kind: u32) -> (Act, u32) {
    match kind {
        COMMAND => (Act::Command { ticket: 1, frame: vec![3, 1, 0, 0, 0, 0, 0] }, 4),
        FINISH => {
            let report =
                Report { stream: 0, queue_type: INPUT, resource: 0, flags: 4, timestamp: 0 };
            (Act::Finish(report), 6)
        }
        _ => (Act::Drained { stream: 0x1234_5678 }, 5),
    }
}

/// Valid tables of each sort: none live, all numbers spent, all full with drains and without, and some
/// with holes and each state.
fn tables_to_spoil(seed: u64) -> Vec<Device> {
    let mut generator = Generator::new(seed);
    let mut over = Device::default();
    over.spent.extend(numbers());
    let idle = full(|_| None);
    // Tickets that let the drain's word be 0, and that do not.
    let draining = full(|number| Some(number % 2));
    let mut devices = vec![Device::default(), over, idle, draining];
    while devices.len() < 7 {
        let device = generator.lent();
        let streams: Vec<&Stream> = device.streams().collect();
        let states = |queued: bool| {
            streams.iter().any(|stream| {
                stream
                    .input
                    .resources
                    .iter()
                    .flatten()
                    .any(|resource| resource.is_queued() == queued)
                    && stream.output.resources.iter().any(Option::is_none)
            })
        };
        if (3..8).contains(&streams.len()) && states(true) && states(false) {
            devices.push(device);
        }
    }
    devices
}

fn variable(name: &str, default: u64) -> u64 {
    match std::env::var(name) {
        Ok(text) => text.parse().unwrap_or_else(|_| panic!("{name} is not a number: {text}")),
        Err(_) => default,
    }
}
