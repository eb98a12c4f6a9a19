// One run of an accepted list by the tick rules: finish, announce, latest
// starts, run. Every tick is stepped and none is skipped.

use super::list::Job;

#[derive(Clone, Copy, Debug, PartialEq, Eq)]
pub enum Outcome {
    Finished,
    Dropped,
}

#[derive(Clone, Copy, Debug)]
pub struct Settled {
    pub outcome: Outcome,
    pub tick: i64,
    pub given: i64,
}

#[derive(Clone, Copy, Debug)]
pub struct Stretch {
    pub row: usize,
    pub first: i64,
    pub after: i64,
}

/// A run at its end: one entry for each row, and the stretches in time order.
pub struct Run {
    pub settled: Vec<Settled>,
    pub stretches: Vec<Stretch>,
    pub value: i64,
}

/// A delayed job with the tick at which it was put in and the room then.
struct Delayed {
    row: usize,
    tick: i64,
    room: i64,
}

/// Rows are counted from 0 here. Signed numbers, so that a room below 0 would
/// be seen and not wrapped.
struct State<'a> {
    jobs: &'a [Job],
    tick: i64,
    running: Option<usize>,
    room: i64,
    held_value: i64,
    waiting: Vec<usize>,
    delayed: Vec<Delayed>,
    announced: usize,
    given: Vec<i64>,
    settled: Vec<Option<(Outcome, i64)>>,
    stretches: Vec<Stretch>,
}

pub fn run(jobs: &[Job]) -> Run {
    let mut state = State::fresh(jobs);
    loop {
        state.finish();
        state.announce();
        state.latest_starts();
        if state.running.is_none() && state.announced == jobs.len() {
            return state.ended();
        }
        state.give_the_tick();
        state.tick += 1;
    }
}

impl State<'_> {
    fn fresh(jobs: &[Job]) -> State<'_> {
        State {
            jobs,
            tick: 0,
            running: None,
            room: 0,
            held_value: 0,
            waiting: Vec::new(),
            delayed: Vec::new(),
            announced: 0,
            given: vec![0; jobs.len()],
            settled: vec![None; jobs.len()],
            stretches: Vec::new(),
        }
    }

    fn cost(&self, row: usize) -> i64 {
        i64::from(self.jobs[row].cost)
    }

    fn deadline(&self, row: usize) -> i64 {
        i64::from(self.jobs[row].deadline)
    }

    fn remaining(&self, row: usize) -> i64 {
        self.cost(row) - self.given[row]
    }

    fn latest_start(&self, row: usize) -> i64 {
        self.deadline(row) - self.remaining(row)
    }

    fn laxity(&self, row: usize) -> i64 {
        self.latest_start(row) - self.tick
    }

    /// A. Finish.
    fn finish(&mut self) {
        let Some(row) = self.running else { return };
        if self.remaining(row) > 0 {
            return;
        }
        self.settled[row] = Some((Outcome::Finished, self.tick));
        self.running = None;
        if let Some(last) = self.delayed.pop() {
            self.resume(last);
        } else if let Some(first) = self.first_waiting() {
            self.take_from_waiting(first);
            self.start(first);
        }
    }

    /// The job delayed last runs again, and the first waiting job may be
    /// offered against it: one job only, even if another one would fit.
    fn resume(&mut self, last: Delayed) {
        self.running = Some(last.row);
        self.held_value -= self.cost(last.row);
        self.room = last.room - (self.tick - last.tick);
        assert!(self.room >= 0, "room fell below 0");
        if let Some(first) = self.first_waiting() {
            if self.deadline(first) < self.deadline(last.row) {
                self.take_from_waiting(first);
                self.offer(first);
            }
        }
    }

    fn first_waiting(&self) -> Option<usize> {
        let order = |&row: &usize| (self.deadline(row), row);
        self.waiting.iter().copied().min_by_key(order)
    }

    fn take_from_waiting(&mut self, row: usize) {
        self.waiting.retain(|&other| other != row);
    }

    fn start(&mut self, row: usize) {
        self.running = Some(row);
        self.room = self.laxity(row);
    }

    /// B. Announce.
    fn announce(&mut self) {
        while self.announced < self.jobs.len()
            && i64::from(self.jobs[self.announced].release) == self.tick
        {
            self.announced += 1;
            self.offer(self.announced - 1);
        }
    }

    fn offer(&mut self, row: usize) {
        let Some(running) = self.running else {
            self.start(row);
            return;
        };
        let remaining = self.remaining(row);
        if self.deadline(row) < self.deadline(running) && self.room >= remaining {
            self.delayed.push(Delayed {
                row: running,
                tick: self.tick,
                room: self.room,
            });
            self.held_value += self.cost(running);
            self.room = (self.room - remaining).min(self.laxity(row));
            self.running = Some(row);
        } else {
            self.waiting.push(row);
        }
    }

    /// C. Latest starts. Whole costs are compared, never remaining ones.
    fn latest_starts(&mut self) {
        while let Some(row) = self.lowest_at_latest_start() {
            self.take_from_waiting(row);
            let running = self.running.expect("no job waits while idle");
            if self.cost(row) > 2 * (self.cost(running) + self.held_value) {
                self.waiting.push(running);
                self.waiting
                    .extend(self.delayed.drain(..).map(|one| one.row));
                self.held_value = 0;
                self.room = 0;
                self.running = Some(row);
            } else {
                self.settled[row] = Some((Outcome::Dropped, self.tick));
            }
        }
    }

    fn lowest_at_latest_start(&self) -> Option<usize> {
        let due = |row: &usize| self.latest_start(*row) == self.tick;
        self.waiting.iter().copied().filter(due).min()
    }

    /// D. Run. A stretch grows while its job keeps the processor.
    fn give_the_tick(&mut self) {
        let Some(row) = self.running else { return };
        self.given[row] += 1;
        let after = self.tick + 1;
        match self.stretches.last_mut() {
            Some(last) if last.row == row && last.after == self.tick => last.after = after,
            _ => self.stretches.push(Stretch {
                row,
                first: self.tick,
                after,
            }),
        }
    }

    fn ended(self) -> Run {
        let settled: Vec<Settled> = (self.settled.iter().zip(&self.given))
            .map(|(end, &given)| {
                let (outcome, tick) = end.expect("every row is settled at the end");
                Settled {
                    outcome,
                    tick,
                    given,
                }
            })
            .collect();
        let finished = |row: &usize| settled[*row].outcome == Outcome::Finished;
        let rows = 0..self.jobs.len();
        let value = rows.filter(finished).map(|row| self.cost(row)).sum();
        Run {
            settled,
            stretches: self.stretches,
            value,
        }
    }
}
