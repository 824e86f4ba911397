//! What a run has met of drains and of the reports that end them: names for a step on a stream whose
//! drain is owed, or was ended by EOS, by what the stream was before it.

use std::collections::BTreeMap;

use super::device::*;

/// Each name with the answer or refusal that is to be met, the last one where there are several: of
/// a finish that is taken this is 0x0202, and of a report that ends a drain 0x0200. "Too early" is an
/// EOS with an input still Queued.
pub const DRAIN_EDGES: &[(Why, u32)] = &[
    ("drained, all outputs Created", 5),
    ("drained, all outputs Queued", 5),
    ("drained, all outputs Dequeued", 5),
    ("drained, outputs and no inputs", 5),
    ("drained, inputs and no outputs", OK_NODATA),
    ("drained, no resources", OK_NODATA),
    ("drained, outputs in other streams alone", OK_NODATA),
    ("drained, an input Queued in another stream", OK_NODATA),
    ("drained, outputs destroyed since the drain", OK_NODATA),
    ("drained, outputs created since the drain", 5),
    ("drained, outputs cleared since the drain", 5),
    ("drained, outputs destroyed and created since the drain", 5),
    ("drained, an EOS too early since the drain", 5),
    ("drained, an input Queued, outputs there", 5),
    ("drained, an input Queued, no outputs", 5),
    ("EOS", OK_NODATA),
    ("EOS with ERR", OK_NODATA),
    ("EOS, no inputs", OK_NODATA),
    ("EOS, inputs and none of them Queued", OK_NODATA),
    ("EOS, no other output Queued", OK_NODATA),
    ("EOS, other outputs Queued", OK_NODATA),
    ("EOS, an input Queued in another stream", OK_NODATA),
    ("EOS, a drain owed in another stream", OK_NODATA),
    ("EOS, all outputs Dequeued since the drain", OK_NODATA),
    ("EOS, one too early since the drain", OK_NODATA),
    ("EOS, the drain before ended by EOS", OK_NODATA),
    ("EOS, the drain before ended by a drained report", OK_NODATA),
    ("EOS, the drain before ended by a clear", OK_NODATA),
    ("EOS too early", 5),
    ("EOS with ERR too early", 5),
    ("EOS too early, other outputs Queued", 5),
    ("EOS of an output not Queued", 5),
    ("EOS of an output not Queued, too early", 5),
    ("EOS of an input Queued", 6),
    ("EOS with other flags", 6),
    ("EOS with other flags, too early", 6),
    ("output finished, no input Queued", OK_RESOURCE_QUEUE),
    ("output finished with ERR, no input Queued", OK_RESOURCE_QUEUE),
    ("last Queued output finished, no input Queued", OK_RESOURCE_QUEUE),
    ("output finished, an input Queued", OK_RESOURCE_QUEUE),
    ("output finished with ERR, an input Queued", OK_RESOURCE_QUEUE),
    ("last Queued input finished", OK_RESOURCE_QUEUE),
    ("last Queued input finished with ERR", OK_RESOURCE_QUEUE),
    ("last Queued input finished, an EOS too early since the drain", OK_RESOURCE_QUEUE),
    ("destroy while draining", OK_NODATA),
    ("drain while draining", INVALID_OPERATION),
    ("output created while draining", OK_NODATA),
    ("input created while draining", OK_NODATA),
    ("output queued while draining", 0),
    ("input queued while draining", INVALID_OPERATION),
    ("outputs destroyed while draining", OK_NODATA),
    ("inputs destroyed while draining", OK_NODATA),
    ("outputs cleared while draining", OK_NODATA),
    ("inputs cleared while draining", OK_NODATA),
    ("outputs set while draining", OK_NODATA),
    ("EOS with no drain owed, an input Queued", 6),
    ("EOS with no drain owed, one owed in another stream", 6),
    ("EOS after EOS", 6),
    ("EOS with ERR after EOS", 6),
    ("drained after EOS", 5),
    ("output finished after EOS", OK_RESOURCE_QUEUE),
    ("destroy after EOS", OK_NODATA),
    ("drain after EOS", 0),
    ("output created after EOS", OK_NODATA),
    ("input created after EOS", OK_NODATA),
    ("output queued after EOS", 0),
    ("input queued after EOS", 0),
    ("outputs destroyed after EOS", OK_NODATA),
    ("inputs destroyed after EOS", OK_NODATA),
    ("outputs cleared after EOS", OK_NODATA),
    ("inputs cleared after EOS", OK_NODATA),
    ("outputs set after EOS", OK_NODATA),
];

/// The same of slots, which a log hardly gets to: there the first slot has an output if any has, and
/// the last one only where all have.
pub const SLOT_EDGES: &[(Why, u32)] = &[
    ("drained, no output in the first slot", 5),
    ("drained, an output in the last slot alone", 5),
    ("drained, an input Queued in the last slot alone, no outputs", 5),
    ("EOS too early, an input Queued in the last slot alone", 5),
];

/// What the records of the table at hand do not hold of drains, by stream number.
#[derive(Default)]
pub struct Pasts(BTreeMap<u32, Past>);

#[derive(Clone, Copy, Default)]
struct Past {
    /// Whether there were outputs when the owed drain was accepted, if it was on this table.
    outputs_at_drain: Option<bool>,
    /// Whether the outputs were cleared while it was owed, and whether destroyed.
    outputs_cleared: bool,
    outputs_destroyed: bool,
    /// Whether it waited for an output to be queued: all were Dequeued, and no input was Queued.
    outputs_dequeued: bool,
    /// Whether an EOS came too early for it.
    eos_too_early: bool,
    /// The kind of step that ended the last drain.
    ended_by: Option<u32>,
}

impl Past {
    /// Notes a step that was taken, by the stream before it.
    fn take(&mut self, stream: &Stream, act: &Act) {
        let (kind, queue_type) = act.kind_and_queue();
        if kind == STREAM_DRAIN {
            let outputs_at_drain = Some(stream.output.has_any());
            *self = Past { outputs_at_drain, ended_by: self.ended_by, ..Past::default() };
        }
        if stream.drain.is_none() {
            return;
        }
        self.outputs_dequeued |= all_are(&stream.output, "Dequeued") && !stream.input.any_queued();
        match (act, kind, queue_type) {
            (_, QUEUE_CLEAR, OUTPUT) => self.outputs_cleared = true,
            (_, RESOURCE_DESTROY_ALL, OUTPUT) => self.outputs_destroyed = true,
            (_, DRAINED, _) | (_, QUEUE_CLEAR, INPUT) => self.ended_by = Some(kind),
            (Act::Finish(report), ..) if report.has_eos() => self.ended_by = Some(kind),
            _ => {}
        }
    }
}

impl Pasts {
    pub fn clear(&mut self) {
        self.0.clear();
    }

    /// Notes a step and the reason for which it was not taken, if there is one, by the records
    /// before it.
    pub fn note(&mut self, before: &Device, act: &Act, why: Option<Why>) {
        let Some(stream) = stream_of(before, act) else { return };
        let past = self.0.entry(stream.number).or_default();
        match why {
            None => past.take(stream, act),
            Some("EOS with an input still Queued") => past.eos_too_early = true,
            Some(_) => {}
        }
    }

    /// All names of a step.
    pub fn names(&self, before: &Device, act: &Act) -> Vec<Why> {
        let Some(stream) = stream_of(before, act) else { return Vec::new() };
        let others = || before.streams().filter(|other| other.number != stream.number);
        let view = View {
            stream,
            past: self.0.get(&stream.number).copied().unwrap_or_default(),
            outputs_elsewhere: others().any(|other| other.output.has_any()),
            queued_elsewhere: others().any(|other| other.input.any_queued()),
            drain_elsewhere: others().any(|other| other.drain.is_some()),
        };
        let names = match (act, stream.drain) {
            (Act::Finish(report), Some(_)) if report.has_eos() => view.of_eos(report),
            (Act::Finish(report), Some(_)) => view.of_finish(report),
            (Act::Finish(report), None) => view.of_finish_without_drain(report),
            (Act::Drained { .. }, Some(_)) => view.of_drained(),
            (Act::Drained { .. }, None) => vec![("drained after EOS", view.after_eos())],
            (Act::Command { .. }, _) => view.of_command(act.kind_and_queue()),
        };
        names.into_iter().filter(|name| name.1).map(|name| name.0).collect()
    }
}

/// A stream before a step.
struct View<'d> {
    stream: &'d Stream,
    past: Past,
    /// Whether another stream has outputs, an input Queued, a drain owed.
    outputs_elsewhere: bool,
    queued_elsewhere: bool,
    drain_elsewhere: bool,
}

type Names = Vec<(Why, bool)>;

impl View<'_> {
    /// Whether EOS has ended the last drain.
    fn after_eos(&self) -> bool {
        self.stream.drain.is_none() && self.past.ended_by == Some(FINISH)
    }

    /// A drained report.
    fn of_drained(&self) -> Names {
        let Stream { input, output, .. } = self.stream;
        let (inputs, outputs) = (input.has_any(), output.has_any());
        if input.any_queued() {
            let last = only_last_is_queued(input);
            return vec![
                ("drained, an input Queued, outputs there", outputs),
                ("drained, an input Queued, no outputs", !outputs),
                ("drained, an input Queued in the last slot alone, no outputs", last && !outputs),
            ];
        }
        let past = self.past;
        let since = |happened: bool| happened && outputs;
        let slot = output.resources.iter().position(Option::is_some);
        vec![
            ("drained, all outputs Created", all_are(output, "Created")),
            ("drained, all outputs Queued", all_are(output, "Queued")),
            ("drained, all outputs Dequeued", all_are(output, "Dequeued")),
            ("drained, outputs and no inputs", outputs && !inputs),
            ("drained, inputs and no outputs", inputs && !outputs),
            ("drained, no resources", !inputs && !outputs),
            ("drained, outputs in other streams alone", self.outputs_elsewhere && !outputs),
            ("drained, an input Queued in another stream", self.queued_elsewhere && !outputs),
            (
                "drained, outputs destroyed since the drain",
                past.outputs_at_drain == Some(true) && !outputs,
            ),
            (
                "drained, outputs created since the drain",
                since(past.outputs_at_drain == Some(false)),
            ),
            ("drained, outputs cleared since the drain", since(past.outputs_cleared)),
            (
                "drained, outputs destroyed and created since the drain",
                since(past.outputs_destroyed),
            ),
            ("drained, an EOS too early since the drain", since(past.eos_too_early)),
            ("drained, no output in the first slot", slot.is_some_and(|slot| slot > 0)),
            ("drained, an output in the last slot alone", slot == Some(SLOTS - 1)),
        ]
    }

    /// A finish report with EOS while draining.
    fn of_eos(&self, report: &Report) -> Names {
        let queued = self.stream.has_queued(report.queue_type, report.resource);
        let early = self.stream.input.any_queued();
        let (output, with_err) = (report.queue_type == OUTPUT, report.flags & ERR != 0);
        if report.flags > ERR + EOS {
            return vec![
                ("EOS with other flags", queued && output && !early),
                ("EOS with other flags, too early", queued && output && early),
            ];
        }
        if !(output && queued) {
            return vec![
                ("EOS of an output not Queued", output && !early),
                ("EOS of an output not Queued, too early", output && early),
                ("EOS of an input Queued", queued),
            ];
        }
        if early {
            return vec![
                ("EOS too early", !with_err),
                ("EOS with ERR too early", with_err),
                ("EOS too early, other outputs Queued", self.stream.output.queued() > 1),
                (
                    "EOS too early, an input Queued in the last slot alone",
                    only_last_is_queued(&self.stream.input),
                ),
            ];
        }
        self.of_last_output(with_err)
    }

    /// A finish report with EOS that ends the drain.
    fn of_last_output(&self, with_err: bool) -> Names {
        let Stream { input, output, .. } = self.stream;
        let past = self.past;
        let ended_by = |kind: u32| past.ended_by == Some(kind);
        vec![
            ("EOS", !with_err),
            ("EOS with ERR", with_err),
            ("EOS, no inputs", !input.has_any()),
            ("EOS, inputs and none of them Queued", input.has_any()),
            ("EOS, no other output Queued", output.queued() == 1),
            ("EOS, other outputs Queued", output.queued() > 1),
            ("EOS, an input Queued in another stream", self.queued_elsewhere),
            ("EOS, a drain owed in another stream", self.drain_elsewhere),
            ("EOS, all outputs Dequeued since the drain", past.outputs_dequeued),
            ("EOS, one too early since the drain", past.eos_too_early),
            ("EOS, the drain before ended by EOS", ended_by(FINISH)),
            ("EOS, the drain before ended by a drained report", ended_by(DRAINED)),
            ("EOS, the drain before ended by a clear", ended_by(QUEUE_CLEAR)),
        ]
    }

    /// A finish report without EOS while draining.
    fn of_finish(&self, report: &Report) -> Names {
        let Stream { input, output, .. } = self.stream;
        let queued = self.stream.has_queued(report.queue_type, report.resource);
        let (plain, with_err) = (queued && report.flags == 0, queued && report.flags == ERR);
        match report.queue_type {
            OUTPUT if !input.any_queued() => vec![
                ("output finished, no input Queued", plain),
                ("output finished with ERR, no input Queued", with_err),
                (
                    "last Queued output finished, no input Queued",
                    (plain || with_err) && output.queued() == 1,
                ),
            ],
            OUTPUT => vec![
                ("output finished, an input Queued", plain),
                ("output finished with ERR, an input Queued", with_err),
            ],
            INPUT if input.queued() == 1 => vec![
                ("last Queued input finished", plain),
                ("last Queued input finished with ERR", with_err),
                (
                    "last Queued input finished, an EOS too early since the drain",
                    (plain || with_err) && self.past.eos_too_early,
                ),
            ],
            _ => Vec::new(),
        }
    }

    /// A finish report with no drain owed.
    fn of_finish_without_drain(&self, report: &Report) -> Names {
        let after = self.after_eos();
        let output = report.queue_type == OUTPUT && self.stream.has_queued(OUTPUT, report.resource);
        let (eos, with_err) = (report.flags == EOS, report.flags == ERR + EOS);
        let early = self.stream.input.any_queued();
        let any_eos = output && (eos || with_err);
        vec![
            ("EOS with no drain owed, an input Queued", any_eos && early),
            (
                "EOS with no drain owed, one owed in another stream",
                any_eos && !early && self.drain_elsewhere,
            ),
            ("EOS after EOS", output && eos && after),
            ("EOS with ERR after EOS", output && with_err && after),
            ("output finished after EOS", output && report.flags <= ERR && after),
        ]
    }

    /// A command, by its type and queue.
    fn of_command(&self, of: (u32, u32)) -> Names {
        let (during, after) = match of {
            (STREAM_DESTROY, _) => ("destroy while draining", "destroy after EOS"),
            (STREAM_DRAIN, _) => ("drain while draining", "drain after EOS"),
            (RESOURCE_CREATE, OUTPUT) => {
                ("output created while draining", "output created after EOS")
            }
            (RESOURCE_CREATE, INPUT) => ("input created while draining", "input created after EOS"),
            (RESOURCE_QUEUE, OUTPUT) => ("output queued while draining", "output queued after EOS"),
            (RESOURCE_QUEUE, INPUT) => ("input queued while draining", "input queued after EOS"),
            (RESOURCE_DESTROY_ALL, OUTPUT) => {
                ("outputs destroyed while draining", "outputs destroyed after EOS")
            }
            (RESOURCE_DESTROY_ALL, INPUT) => {
                ("inputs destroyed while draining", "inputs destroyed after EOS")
            }
            (QUEUE_CLEAR, OUTPUT) => {
                ("outputs cleared while draining", "outputs cleared after EOS")
            }
            (QUEUE_CLEAR, INPUT) => ("inputs cleared while draining", "inputs cleared after EOS"),
            (SET_PARAMS, OUTPUT) => ("outputs set while draining", "outputs set after EOS"),
            _ => return Vec::new(),
        };
        vec![(during, self.stream.drain.is_some()), (after, self.after_eos())]
    }
}

/// Whether a queue has resources, all in this state.
fn all_are(queue: &Queue, state: Why) -> bool {
    let mut resources = queue.resources.iter().flatten();
    queue.has_any() && resources.all(|resource| resource.state.name() == state)
}

/// Whether the resource in the last slot is Queued, and no other.
fn only_last_is_queued(queue: &Queue) -> bool {
    queue.queued() == 1 && queue.resources[SLOTS - 1].is_some_and(|last| last.is_queued())
}

/// The live stream that a step is for.
fn stream_of<'d>(device: &'d Device, act: &Act) -> Option<&'d Stream> {
    device.stream(act.stream()?)
}
