//! A line on standard error that moves while sweeps are worked at, where a person looks on: how far the list is, and
//! how long the sweep takes, which is one call and says nothing itself.

use crate::progress::time;
use crate::shown::shown;
use std::collections::BTreeMap;
use std::ffi::OsStr;
use std::io::{stderr, IsTerminal, Write};
use std::sync::{Condvar, Mutex, MutexGuard, PoisonError};
use std::time::{Duration, Instant};

pub struct Alive {
    shown: bool,
    state: Mutex<State>,
    over: Condvar,
}

struct State {
    total: usize,
    begun: usize,
    done: usize,
    start: Instant,
    /// Those that are worked at, by their place in the list.
    sweeps: BTreeMap<usize, Sweep>,
    /// Whether the line stands there.
    drawn: bool,
    over: bool,
}

struct Sweep {
    name: String,
    /// The part that is worked at, from 0, of so many.
    part: usize,
    parts: usize,
    since: Instant,
    /// How many seconds it will take, about.
    about: Option<f64>,
}

impl Alive {
    pub fn new(total: usize) -> Alive {
        let (start, sweeps) = (Instant::now(), BTreeMap::new());
        let state = State { total, begun: 0, done: 0, start, sweeps, drawn: false, over: false };
        Alive { shown: stderr().is_terminal(), state: Mutex::new(state), over: Condvar::new() }
    }

    /// Whether anybody sees it.
    pub fn shown(&self) -> bool {
        self.shown
    }

    fn state(&self) -> MutexGuard<'_, State> {
        self.state.lock().unwrap_or_else(PoisonError::into_inner)
    }

    pub fn begin(&self, index: usize, name: &OsStr) {
        let mut state = self.state();
        let name = shown(name).to_string().chars().take(30).collect();
        state.begun += 1;
        state.sweeps.insert(index, Sweep { name, part: 0, parts: 1, since: Instant::now(), about: None });
        // A single sweep may be done at once.
        if state.total > 1 {
            self.draw(&mut state);
        }
    }

    /// Of a sweep a part begins.
    pub fn part(&self, index: usize, part: usize, parts: usize) {
        let mut state = self.state();
        if let Some(sweep) = state.sweeps.get_mut(&index) {
            *sweep = Sweep { name: std::mem::take(&mut sweep.name), part, parts, since: Instant::now(), about: None };
        }
        self.draw(&mut state);
    }

    /// The long call begins, which will take so many seconds, about.
    pub fn expect(&self, index: usize, about: Option<f64>) {
        if let Some(sweep) = self.state().sweeps.get_mut(&index) {
            (sweep.since, sweep.about) = (Instant::now(), about);
        }
    }

    pub fn end(&self, index: usize) {
        let mut state = self.state();
        state.sweeps.remove(&index);
        state.done += 1;
    }

    /// Removes the line for what is said meanwhile.
    pub fn quietly(&self, say: impl FnOnce()) {
        let mut state = self.state();
        self.clear(&mut state);
        say();
    }

    /// Draws the line each second until it is over, and then removes it.
    pub fn run(&self) {
        let mut state = self.state();
        while self.shown && !state.over {
            let waited = self.over.wait_timeout(state, Duration::from_secs(1));
            state = waited.unwrap_or_else(PoisonError::into_inner).0;
            if !state.over && !state.sweeps.is_empty() {
                self.draw(&mut state);
            }
        }
        self.clear(&mut state);
    }

    pub fn stop(&self) {
        self.state().over = true;
        self.over.notify_all();
    }

    fn draw(&self, state: &mut State) {
        if self.shown {
            let _ = write!(stderr(), "\r\x1b[K{}", state.words(Instant::now()));
            let _ = stderr().flush();
            state.drawn = true;
        }
    }

    fn clear(&self, state: &mut State) {
        if std::mem::take(&mut state.drawn) {
            let _ = write!(stderr(), "\r\x1b[K");
            let _ = stderr().flush();
        }
    }
}

impl State {
    fn words(&self, now: Instant) -> String {
        let running: f64 = self.sweeps.values().map(|sweep| sweep.share(now)).sum();
        let share = (self.done as f64 + running) / self.total as f64;
        let (begun, total, percent) = (self.begun, self.total, (100.0 * share) as usize);
        let Some(sweep) = self.sweeps.values().next() else { return format!("{begun}/{total} ({percent}%)") };
        let Sweep { name, part, parts, .. } = sweep;
        let tile = if *parts > 1 { format!(", tile {}/{parts}", part + 1) } else { String::new() };
        let spent = now.duration_since(self.start).as_secs_f64();
        let left = match share > 0.0 && (total > 1 || *parts > 1) {
            true => format!(", about {} left", time(spent / share * (1.0 - share))),
            false => String::new(),
        };
        format!("{begun}/{total}{tile} ({percent}%) {name}{}{left}", sweep.time(now))
    }
}

impl Sweep {
    /// How much of it is done, from 0 to 1: its parts, and of this one what the estimate says.
    fn share(&self, now: Instant) -> f64 {
        let spent = now.duration_since(self.since).as_secs_f64();
        let this = self.about.map_or(0.0, |about| (spent / about).min(1.0));
        (self.part as f64 + this) / self.parts as f64
    }

    fn time(&self, now: Instant) -> String {
        let spent = now.duration_since(self.since).as_secs_f64();
        match self.about {
            _ if spent < 1.0 => String::new(),
            None => format!(": {}", time(spent.floor())),
            Some(about) if spent <= about => format!(": {} of about {}", time(spent.floor()), time(about)),
            Some(about) => format!(": {}, estimated were about {}", time(spent.floor()), time(about)),
        }
    }
}

#[cfg(test)]
mod tests {
    use super::*;

    /// The line after so many seconds.
    fn after(state: &State, seconds: u64) -> String {
        state.words(state.start + Duration::from_secs(seconds))
    }

    fn state(total: usize, done: usize) -> State {
        let start = Instant::now();
        State { total, begun: done, done, start, sweeps: BTreeMap::new(), drawn: false, over: false }
    }

    fn begin(state: &mut State, index: usize, (part, parts): (usize, usize), about: Option<f64>) {
        state.begun += 1;
        state.sweeps.insert(index, Sweep { name: format!("s{index}"), part, parts, since: state.start, about });
    }

    #[test]
    fn one_sweep() {
        let mut one = state(1, 0);
        begin(&mut one, 0, (0, 1), None);
        assert_eq!(after(&one, 0), "1/1 (0%) s0");
        assert_eq!(after(&one, 12), "1/1 (0%) s0: 12 s");
        one.sweeps.get_mut(&0).unwrap().about = Some(51.2);
        assert_eq!(after(&one, 12), "1/1 (23%) s0: 12 s of about 52 s");
        assert_eq!(after(&one, 61), "1/1 (100%) s0: 0:01:01, estimated were about 52 s");
    }

    #[test]
    fn a_list() {
        let mut list = state(4, 1);
        begin(&mut list, 1, (0, 1), Some(20.0));
        assert_eq!(after(&list, 10), "2/4 (37%) s1: 10 s of about 20 s, about 17 s left");
        begin(&mut list, 2, (0, 1), Some(20.0));
        assert_eq!(after(&list, 10), "3/4 (50%) s1: 10 s of about 20 s, about 10 s left");
        let mut tiles = state(1, 0);
        begin(&mut tiles, 0, (2, 4), None);
        assert_eq!(after(&tiles, 10), "1/1, tile 3/4 (50%) s0: 10 s, about 10 s left");
    }
}
