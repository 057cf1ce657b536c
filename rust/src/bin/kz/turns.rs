//! A list that several threads work at. Sweeps are begun in the order of the list; what is said of them, and their
//! lines in the log, come in that order too, so that neither tells how many threads there were, or which was faster.

use crate::alive::Alive;
use crate::fail::Fail;
use crate::log::Log;
use crate::progress::warn;
use std::collections::BTreeMap;
use std::io::Write;
use std::sync::{Condvar, Mutex, MutexGuard, PoisonError};

pub struct Turns {
    total: usize,
    state: Mutex<State>,
    /// A line was written, or none will be any more.
    written: Condvar,
    pub alive: Alive,
}

struct State {
    /// How many sweeps are begun.
    begun: usize,
    /// None is begun any more.
    closed: bool,
    log: Option<Log>,
    /// How many sweeps have their lines in the log.
    lines: usize,
    /// Why the log cannot be written.
    unlogged: Option<String>,
    /// The sweep whose words are said as they come.
    turn: usize,
    /// What later ones have to say, and how they ended, if they did.
    held: BTreeMap<usize, Held>,
    /// Where words about files go.
    to: Box<dyn Write + Send>,
    tally: Tally,
}

#[derive(Default)]
struct Held {
    words: Vec<String>,
    end: Option<Result<(), Fail>>,
}

/// How the sweeps before the turn ended.
#[derive(Default)]
struct Tally {
    ended: usize,
    refused: usize,
    there: usize,
    /// Why the list had to stop: what to do.
    stopped: Option<&'static str>,
    /// What ends the command by itself.
    fail: Option<Fail>,
}

impl Turns {
    pub fn new(total: usize, log: Option<Log>, alive: Alive, to: Box<dyn Write + Send>) -> Turns {
        let state = State {
            begun: 0,
            closed: false,
            log,
            lines: 0,
            unlogged: None,
            turn: 0,
            held: BTreeMap::new(),
            to,
            tally: Tally::default(),
        };
        Turns { total, state: Mutex::new(state), written: Condvar::new(), alive }
    }

    /// A thread that panicked leaves a state that is whole: nothing that is done here panics.
    fn state(&self) -> MutexGuard<'_, State> {
        self.state.lock().unwrap_or_else(PoisonError::into_inner)
    }

    /// Begins the next sweep: its index.
    pub fn begin(&self) -> Option<usize> {
        let mut state = self.state();
        if state.closed || state.begun == self.total {
            return None;
        }
        state.begun += 1;
        Some(state.begun - 1)
    }

    /// Writes a sweep's lines, when all before it have theirs; None where there is no log.
    pub fn log<T>(&self, index: usize, write: impl FnOnce(&mut Log) -> Result<T, Fail>) -> Result<Option<T>, Fail> {
        let mut state = self.state();
        while state.lines < index && state.unlogged.is_none() {
            state = self.written.wait(state).unwrap_or_else(PoisonError::into_inner);
        }
        if let Some(words) = &state.unlogged {
            return Err(Fail::Unlogged(words.clone()));
        }
        // Nobody else may write now, so it can be taken away: what is read and cut meanwhile holds nobody up.
        let mut log = state.log.take();
        drop(state);
        let done = log.as_mut().map(write).transpose();
        let mut state = self.state();
        state.log = log;
        match &done {
            Ok(_) => state.lines += 1,
            Err(fail) => state.unlogged = Some(fail.words().into()),
        }
        self.written.notify_all();
        done
    }

    /// Says something of a sweep, at once if it is its turn.
    pub fn say(&self, index: usize, words: String) {
        let mut state = self.state();
        if index == state.turn {
            self.alive.quietly(|| state.say(&words));
        } else {
            state.held.entry(index).or_default().words.push(words);
        }
    }

    /// Ends a sweep. Where nothing can be done any more, none is begun.
    pub fn end(&self, index: usize, end: Result<(), Fail>) {
        let mut state = self.state();
        state.closed |= !matches!(end, Ok(()) | Err(Fail::Refused(_) | Fail::Taken(_)));
        state.held.entry(index).or_default().end = Some(end);
        self.alive.quietly(|| state.go_on(self.total));
    }

    /// Nothing more is begun or written, and nobody waits: a thread panicked, which is a fault of kz.
    pub fn give_up(&self) {
        let mut state = self.state();
        state.closed = true;
        state.unlogged = Some("stopped, by a fault of kz: report it".into());
        self.written.notify_all();
        self.alive.stop();
    }

    /// How the list ended; and the log, with how many sweeps have their lines, unless it could not be written.
    pub fn ended(self) -> (Result<(), Fail>, Option<Log>, usize) {
        let state = self.state.into_inner().unwrap_or_else(PoisonError::into_inner);
        let log = state.log.filter(|_| state.unlogged.is_none());
        (state.tally.result(self.total), log, state.lines)
    }
}

impl State {
    /// A line. That nobody reads it is no reason to stop.
    fn say(&mut self, words: &str) {
        let _ = writeln!(self.to, "{words}");
    }

    /// Says what the next ones have to say, as far as they have ended.
    fn go_on(&mut self, total: usize) {
        while let Some(held) = self.held.remove(&self.turn) {
            held.words.iter().for_each(|words| self.say(words));
            let Some(end) = held.end else { break };
            self.tally.count(end, total);
            self.turn += 1;
        }
    }
}

impl Tally {
    fn count(&mut self, end: Result<(), Fail>, total: usize) {
        let many = total > 1;
        self.ended += 1;
        match end {
            Ok(()) => {}
            Err(Fail::Refused(words)) if many => {
                self.refused += 1;
                warn(&words);
            }
            Err(Fail::Taken(words)) if many => {
                self.there += 1;
                warn(&words);
            }
            Err(Fail::Stopped(words)) if many => self.stop(&words, ROOM),
            Err(Fail::Unfit(words)) if many => self.stop(&words, MEND),
            Err(fail) => self.fail = self.fail.take().or(Some(fail)),
        }
    }

    /// Said once: sweeps that were begun at the same time meet the same.
    fn stop(&mut self, words: &str, advice: &'static str) {
        self.ended -= 1;
        if self.stopped.is_none() {
            warn(words);
            self.stopped = Some(advice);
        }
    }

    fn result(self, total: usize) -> Result<(), Fail> {
        if let Some(fail) = self.fail {
            return Err(fail);
        }
        if let Some(advice) = self.stopped {
            let left = total - self.ended;
            return Err(Fail::Refused(format!("stopped, with {left} of {total} sweeps still to do; {advice}")));
        }
        match (self.refused, self.there) {
            (0, 0) => Ok(()),
            (n, 0) => Err(Fail::Refused(format!("{n} of {total} sweeps were refused"))),
            (0, n) => Err(Fail::Refused(format!("{n} of {total} sweeps had their file already; {SKIP}"))),
            (n, m) => {
                Err(Fail::Refused(format!("{n} of {total} sweeps were refused, {m} had their file already; {SKIP}")))
            }
        }
    }
}

const ROOM: &str = "make room, or give another -o, and go on with --skip-existing";
const MEND: &str = "mend that, and go on with --skip-existing";
const SKIP: &str = "--skip-existing takes such files for done";

#[cfg(test)]
mod tests {
    use super::*;
    use std::thread;
    use std::time::Duration;

    /// Lines are written in the order of the list, whoever comes first; after one that cannot be, none is.
    #[test]
    fn lines_in_order() {
        let folder = std::env::temp_dir().join(format!("kz-turns-{}", std::process::id()));
        std::fs::create_dir_all(&folder).unwrap();
        let log = Log::new(&folder.join("log"), true).ok();
        let turns = Turns::new(4, log, Alive::new(4), Box::new(std::io::sink()));
        let order = Mutex::new(vec![]);
        let write = |index: usize| {
            turns.log(index, |_| {
                order.lock().unwrap().push(index);
                if index == 2 {
                    return Err(Fail::Unlogged("full".into()));
                }
                Ok(())
            })
        };
        thread::scope(|scope| {
            for index in [3, 2, 1] {
                scope.spawn(move || assert_eq!(write(index).is_ok(), index == 1));
                thread::sleep(Duration::from_millis(20));
            }
            assert!(order.lock().unwrap().is_empty() && write(0).is_ok());
        });
        assert_eq!(*order.lock().unwrap(), [0, 1, 2]);
        let (_, log, lines) = turns.ended();
        assert_eq!((log.is_none(), lines), (true, 2));
        std::fs::remove_dir_all(&folder).unwrap();
    }
}
