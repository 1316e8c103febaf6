//! The machine: its state, its turns, and a run.

use crate::heap::Heap;
use crate::image::Device;
use crate::instructions::Instruction;
use crate::memory::Memory;
use crate::words::Cap;
use std::io::Write;

/// Cause, code and register.
#[derive(Clone, Copy)]
pub struct Trap(pub u8, pub u8, pub u8);

/// What the report's entries say of a number, as far as the machine asks.
#[derive(Clone, Copy, Default)]
pub struct Entry {
    /// The export that a slot names, or 0.
    pub of: u32,
    /// A quota's limit.
    pub limit: u32,
    /// Of an export: its compartment, address, stack, arguments, posture, whether capabilities pass.
    pub owner: u32,
    pub code: u32,
    pub stack: u32,
    pub arguments: u8,
    pub posture: u8,
    pub passes: bool,
    /// Where its row stands.
    pub at: u32,
}

/// What a thread has while it runs: `off` is the export that holds interrupts off.
#[derive(Clone, Copy, Default)]
pub struct Context {
    pub pcc: Cap,
    pub registers: [Cap; 16],
    pub off: Option<u32>,
}

/// A frame with the caller's c1, c2, c3, c8 and c9.
pub struct Frame {
    pub actor: u32,
    pub export: u32,
    pub top: u32,
    pub saved: [Cap; 5],
}

#[derive(Clone, Copy, PartialEq)]
pub enum Status {
    Ready,
    Sleeps(u32),
    Waits(u32),
    Ended,
}

pub struct Thread {
    pub stack: u32,
    /// Where its area begins, as an offset in RAM.
    pub area: u32,
    pub most: usize,
    pub priority: u32,
    pub status: Status,
    /// Stale while it runs.
    pub context: Context,
    /// The innermost last.
    pub frames: Vec<Frame>,
}

#[derive(Default)]
pub struct Counts {
    pub steps: u32,
    pub ticks: u32,
    pub calls: u32,
    pub devices: u32,
    pub frees: u32,
    pub traps: u32,
}

pub struct Machine {
    pub memory: Memory,
    /// The words of RAM up to the last code region's end, decoded where they are code.
    pub code: Vec<Instruction>,
    pub entries: Vec<Entry>,
    /// Code and globals of each compartment.
    pub compartments: Vec<(Cap, Cap)>,
    /// The return sentry.
    pub back: Cap,
    pub heap: Heap,
    /// How far the running sweep has come, and how many granules a slice has.
    pub front: Option<u32>,
    pub rate: u32,
    pub threads: Vec<Thread>,
    pub running: Option<usize>,
    pub now: Context,
    pub pending: bool,
    /// The threads in the order of their last picks.
    pub order: Vec<usize>,
    pub devices: Vec<Device>,
    pub outputs: Vec<u32>,
    pub time: u64,
    pub quantum: u32,
    pub counts: Counts,
    /// The lines of a step.
    pub told: Vec<u8>,
}

impl Machine {
    /// Runs at most so many steps, and writes the lines of each and the summary.
    pub fn run(&mut self, limit: u32, out: &mut impl Write) -> std::io::Result<()> {
        let mut tick_after = self.quantum;
        let end = loop {
            if self.running.is_none() {
                if let Some(end) = self.end() {
                    break end;
                }
            }
            if self.counts.steps == limit {
                break "limit";
            }
            if self.counts.steps == tick_after {
                self.tick();
                tick_after = tick_after.saturating_add(self.quantum);
            }
            let sweeps = self.front.is_some() || self.heap.has_quarantined();
            if sweeps {
                self.sweep();
            }
            self.turn(if sweeps { self.counts.steps + 1 } else { limit.min(tick_after) });
            if !self.told.is_empty() {
                out.write_all(&self.told)?;
                self.told.clear();
            }
        };
        self.summary(end, out)
    }

    fn summary(&self, end: &str, out: &mut impl Write) -> std::io::Result<()> {
        let Counts { steps, ticks, calls, devices, frees, traps } = self.counts;
        let allocations = self.heap.next - 1;
        write!(out, "end {end} steps {steps} ticks {ticks} calls {calls} devices {devices} ")?;
        writeln!(out, "allocations {allocations} frees {frees} traps {traps}")
    }

    fn end(&self) -> Option<&'static str> {
        let ended = |thread: &Thread| thread.status == Status::Ended;
        let rests = |thread: &Thread| matches!(thread.status, Status::Ended | Status::Waits(_));
        if self.threads.iter().all(ended) {
            return Some("finished");
        }
        self.threads.iter().all(rests).then_some("idle")
    }

    // ---- what a step says

    pub fn actor(&self, thread: usize) -> u32 {
        self.threads[thread].frames.last().map_or(0, |frame| frame.actor)
    }

    /// A deed of the running thread, by an entry where there is one.
    #[inline(never)]
    pub fn tell(&mut self, deed: &str, entry: Option<u32>, rest: std::fmt::Arguments) {
        let thread = self.running.unwrap_or(0);
        let (step, actor) = (self.counts.steps, self.actor(thread));
        let by = entry.map_or(String::new(), |entry| format!(" e{entry}"));
        let _ = writeln!(self.told, "{step} {deed} t{thread} c{actor}{by} {rest}");
    }

    fn tell_trap(&mut self, Trap(cause, code, register): Trap) {
        self.tell("trap", None, format_args!("{cause} {code} {register}"));
    }

    #[cold]
    fn tell_off(&mut self, export: u32) {
        let thread = self.running.unwrap_or(0);
        let (step, actor) = (self.counts.steps, self.actor(thread));
        let _ = writeln!(self.told, "{step} off t{thread} c{actor} e{export}");
    }

    // ---- events

    /// The thread that holds interrupts off, and the export by which it does.
    fn holder(&self) -> Option<(usize, u32)> {
        match (self.running, self.now.off) {
            (Some(thread), Some(export)) => Some((thread, export)),
            _ => None,
        }
    }

    /// Steps until so many were made, at least one. It ends after one that says something, or that another thread or
    /// posture may follow.
    #[inline(never)]
    fn turn(&mut self, mut until: u32) {
        let before = self.holder();
        if self.pending && self.running.is_some() && self.now.off.is_none() {
            self.stop();
            self.pending = false;
        }
        if self.running.is_none() {
            self.schedule();
            until = self.counts.steps + 1;
        }
        if self.running.is_none() {
            self.counts.steps += 1;
        } else if let Err(trap) = self.execute_until(until) {
            self.trapped(trap);
        }
        let after = self.holder();
        if let Some((_, export)) = after {
            if before != after {
                self.tell_off(export);
            }
        }
    }

    #[cold]
    fn trapped(&mut self, trap: Trap) {
        self.counts.traps += 1;
        self.tell_trap(trap);
        self.leave(Cap::integer(u32::MAX), Cap::integer(0));
    }

    #[inline(never)]
    fn tick(&mut self) {
        self.time += 1;
        self.counts.ticks += 1;
        for thread in &mut self.threads {
            if let Status::Sleeps(ticks) = thread.status {
                thread.status = if ticks > 1 { Status::Sleeps(ticks - 1) } else { Status::Ready };
            }
        }
        if self.running.is_some() {
            if self.now.off.is_some() {
                self.pending = true;
            } else {
                self.stop();
            }
        }
    }

    /// The running thread stops, and what it has is put aside.
    pub fn stop(&mut self) {
        if let Some(thread) = self.running.take() {
            self.threads[thread].context = self.now;
        }
    }

    #[inline(never)]
    fn schedule(&mut self) {
        let ready = |thread: &usize| self.threads[*thread].status == Status::Ready;
        let Some(best) = self.order.iter().copied().filter(ready).map(|t| self.threads[t].priority).max() else {
            return;
        };
        let place = self.order.iter().position(|t| ready(t) && self.threads[*t].priority == best);
        let thread = self.order.remove(place.unwrap_or(0));
        self.order.push(thread);
        self.now = self.threads[thread].context;
        self.now.pcc = self.memory.filtered(&self.now.pcc);
        self.filter_registers();
        self.running = Some(thread);
    }

    pub fn filter_registers(&mut self) {
        for register in &mut self.now.registers {
            *register = self.memory.filtered(register);
        }
    }

    // ---- the revoker

    /// A slice of a sweep; where none runs, one begins.
    #[inline(never)]
    fn sweep(&mut self) {
        if self.front.is_none() {
            self.heap.begin_sweep();
        }
        let low = self.front.unwrap_or(0);
        let high = self.memory.size.min(low + 8 * self.rate);
        self.memory.sweep(low, high);
        for thread in 0..self.threads.len() {
            self.sweep_area(thread, low, high);
        }
        self.front = Some(high);
        if high == self.memory.size {
            for (base, length) in self.heap.end_sweep() {
                self.memory.mark(base - 8, base + length, false);
            }
            self.front = None;
        }
    }

    /// The registers of a thread that doesn't run, and what its frames saved, stand in its area.
    fn sweep_area(&mut self, thread: usize, low: u32, high: u32) {
        let runs = self.running == Some(thread);
        let (memory, thread) = (&self.memory, &mut self.threads[thread]);
        let area = thread.area;
        if high <= area || area + 160 + 64 * thread.most as u32 <= low {
            return;
        }
        let sweep = |at: u32, cap: &mut Cap| {
            if low <= at && at < high {
                *cap = memory.filtered(cap);
            }
        };
        if !runs {
            sweep(area, &mut thread.context.pcc);
            for (n, register) in thread.context.registers.iter_mut().enumerate() {
                sweep(area + 8 * n as u32, register);
            }
        }
        for (n, frame) in thread.frames.iter_mut().enumerate() {
            for (k, saved) in frame.saved.iter_mut().enumerate() {
                sweep(area + 160 + 64 * n as u32 + 8 * k as u32, saved);
            }
        }
    }
}
