//! Tasks in a `SlotMap`, and timers in a `BTreeMap` by deadline and sequence.
mod common;
use common::{lap, print, with, Random};
use slotmap::{DefaultKey, SlotMap};
use std::collections::BTreeMap;
use std::time::Instant;

struct Task {
    timer: (u64, u64),
    period: u64,
    runs: u64,
}

#[derive(Default)]
struct Scheduler {
    tasks: SlotMap<DefaultKey, Task>,
    timers: BTreeMap<(u64, u64), DefaultKey>,
    sequence: u64,
    now: u64,
}

impl Scheduler {
    // Sets a timer for a task so far from now.
    fn set(&mut self, task: DefaultKey, after: u64) -> (u64, u64) {
        self.sequence += 1;
        let timer = (self.now + after, self.sequence);
        self.timers.insert(timer, task);
        timer
    }

    fn spawn(&mut self, period: u64) -> DefaultKey {
        let p = self.tasks.insert(Task { timer: (0, 0), period, runs: 0 });
        self.tasks[p].timer = self.set(p, period);
        p
    }

    fn wake(&mut self) -> Option<u64> {
        let ((deadline, sequence), p) = self.timers.pop_first()?;
        self.now = deadline;
        let task = self.tasks.get_mut(p)?;
        task.runs += 1;
        let sum = sequence + task.runs;
        let period = task.period;
        self.tasks[p].timer = self.set(p, period);
        Some(sum)
    }

    fn reschedule(&mut self, p: DefaultKey, after: u64) -> bool {
        let Some(task) = self.tasks.get(p) else { return false };
        self.timers.remove(&task.timer);
        self.tasks[p].timer = self.set(p, after);
        true
    }

    fn cancel(&mut self, p: DefaultKey) -> Option<u64> {
        let task = self.tasks.remove(p)?;
        self.timers.remove(&task.timer);
        Some(task.runs)
    }
}

fn event(scheduler: &mut Scheduler, random: &mut Random, handles: &mut [DefaultKey]) -> u64 {
    let kind = random.below(100);
    if kind < 50 {
        return scheduler.wake().unwrap_or(3);
    }
    let at = random.below(handles.len() as u64) as usize;
    let p = handles[at];
    if kind < 80 {
        return scheduler.reschedule(p, random.below(100_000)) as u64;
    }
    if kind < 90 {
        return scheduler.cancel(p).unwrap_or(5);
    }
    if scheduler.tasks.contains_key(p) {
        return 2;
    }
    handles[at] = scheduler.spawn(random.below(100_000));
    1
}

fn main() {
    let n = std::env::args().nth(1).map_or(500, |n| n.parse::<u64>().unwrap());
    let mut random = Random(0x9e37_79b9_7f4a_7c15);
    let mut scheduler = Scheduler::default();
    let mut handles = Vec::with_capacity(n as usize);
    let mut sum = 0;
    let mut fill = Vec::new();
    let mut start = Instant::now();
    for k in 0..n {
        handles.push(scheduler.spawn(random.below(100_000)));
        if k % 1000 == 999 {
            lap(&mut start, &mut fill);
        }
    }
    let mut mixed = Vec::new();
    start = Instant::now();
    for k in 0..n {
        sum = with(sum, event(&mut scheduler, &mut random, &mut handles));
        if k % 1000 == 999 {
            lap(&mut start, &mut mixed);
        }
    }
    println!("sum {sum} tasks {}", scheduler.tasks.len());
    print("fill", &fill);
    print("mixed", &mixed);
}
