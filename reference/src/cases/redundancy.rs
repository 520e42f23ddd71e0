//! The cases of networks A and B: single calls on any state, and long runs of two copies of a stream.
//!
//! Standard input is a run of cases. A case is its form (1 byte; 1: each line has the state, 2: the last has), the
//! state, the number of calls (2 bytes), and the calls. All numbers are little-endian. The state: skew (8 bytes); the
//! number last received on A (2 bytes: 0 and 0 if none, else 1 and the number); that on B; what was handed on last
//! (1 byte, 0 if nothing, else 1; number, 1 byte; tick, 8 bytes); the tick last taken (8 bytes). A call: length (2
//! bytes) and tick (8 bytes) of A's frame, those of B's, then the bytes of A's, and of B's.
//!
//! Standard output has a line for each call: refusal or 0; network, - where none was taken; 1 if that was handed on,
//! else 0; length of the part, its first and its last byte, 0 where there is none; then, in form 1, the state: skew,
//! number on A, number on B, number and tick of what was handed on last, each - where there is none; the tick last
//! taken, 0 where there is none. A case of form 2 ends with the line `end` and the state.

use super::redundancy_calls;
use super::redundancy_runs;
use super::Cases;
use crate::redundancy::{Network, State, Waiting};

/// What waits on a network: the bytes of a frame, none where it is absent, and its tick.
#[derive(Clone)]
pub struct Frame {
    pub bytes: Vec<u8>,
    pub tick: u64,
}

pub struct Call {
    pub a: Frame,
    pub b: Frame,
}

impl Frame {
    pub fn waiting(&self) -> Waiting<'_> {
        Waiting { frame: &self.bytes, tick: self.tick }
    }
}

fn put_received(bytes: &mut Vec<u8>, number: Option<u8>) {
    bytes.extend([u8::from(number.is_some()), number.unwrap_or(0)]);
}

fn put_state(bytes: &mut Vec<u8>, state: &State) {
    bytes.extend(state.skew.to_le_bytes());
    put_received(bytes, state.on_a);
    put_received(bytes, state.on_b);
    put_received(bytes, state.last.map(|last| last.number));
    bytes.extend(state.last.map_or(0, |last| last.tick).to_le_bytes());
    bytes.extend(state.taken.unwrap_or(0).to_le_bytes());
}

fn put_call(bytes: &mut Vec<u8>, call: &Call) {
    for frame in [&call.a, &call.b] {
        bytes.extend((frame.bytes.len() as u16).to_le_bytes());
        bytes.extend(frame.tick.to_le_bytes());
    }
    bytes.extend(&call.a.bytes);
    bytes.extend(&call.b.bytes);
}

fn said_of(state: &State) -> String {
    let received = |number: Option<u8>| number.map_or("-".to_string(), |number| number.to_string());
    let last = state.last.map_or("-".to_string(), |last| format!("{} {}", last.number, last.tick));
    let on = format!("{} {}", received(state.on_a), received(state.on_b));
    format!("{} {on} {last} {}", state.skew, state.taken.unwrap_or(0))
}

/// What happened, for a person to read.
#[derive(Default)]
struct Tally {
    calls: usize,
    handed_on: [usize; 2],
    left: [usize; 2],
    refused: [usize; 2],
}

/// The cases while they are made.
struct Maker {
    cases: Cases,
    tally: Tally,
}

impl Maker {
    /// Runs a call, and gives its line with no state.
    fn line_of(&mut self, state: &mut State, call: &Call) -> String {
        self.tally.calls += 1;
        let answer = match state.call(call.a.waiting(), call.b.waiting()) {
            Ok(answer) => answer,
            Err(refusal) => {
                self.tally.refused[refusal as usize - 17] += 1;
                return format!("{refusal} - 0 0 0 0");
            }
        };
        let (network, i) = match answer.network {
            Network::A => ('A', 0),
            Network::B => ('B', 1),
        };
        if answer.handed_on {
            self.tally.handed_on[i] += 1;
        } else {
            self.tally.left[i] += 1;
        }
        let part = answer.part;
        let [first, last] = [part.first(), part.last()].map(|byte| byte.copied().unwrap_or(0));
        format!("0 {network} {} {} {first} {last}", u8::from(answer.handed_on), part.len())
    }

    fn case(&mut self, form: u8, state: &State, calls: &[Call]) {
        let mut state = *state;
        self.cases.stdin.push(form);
        put_state(&mut self.cases.stdin, &state);
        self.cases.stdin.extend((calls.len() as u16).to_le_bytes());
        for call in calls {
            put_call(&mut self.cases.stdin, call);
            let mut line = self.line_of(&mut state, call);
            if form == 1 {
                line += &format!(" {}", said_of(&state));
            }
            self.say(&line);
        }
        if form == 2 {
            self.say(&format!("end {}", said_of(&state)));
        }
    }

    fn say(&mut self, line: &str) {
        self.cases.stdout.extend(line.as_bytes());
        self.cases.stdout.push(b'\n');
    }
}

pub fn cases() -> Cases {
    let cases = Cases { stdin: Vec::new(), stdout: Vec::new(), summary: String::new() };
    let mut maker = Maker { cases, tally: Tally::default() };
    for (state, call) in redundancy_calls::all() {
        maker.case(1, &state, &[call]);
    }
    let single = maker.tally.calls;
    let runs = redundancy_runs::all();
    for (state, calls) in &runs {
        maker.case(2, state, calls);
    }
    let Maker { mut cases, tally } = maker;
    cases.summary = format!(
        "single calls: {single}; runs: {}, with {} calls; handed on from A, B: {:?}; left: {:?}; refused 17, 18: {:?}\n",
        runs.len(),
        tally.calls - single,
        tally.handed_on,
        tally.left,
        tally.refused
    );
    cases
}

#[cfg(test)]
mod tests {
    use super::*;

    #[test]
    fn there_are_calls_of_each_kind() {
        let text = String::from_utf8(cases().stdout).expect("plain text");
        let (single, in_runs): (Vec<&str>, Vec<&str>) =
            text.lines().partition(|line| line.split(' ').count() > 6 && !line.starts_with("end"));
        assert!(single.len() >= 2_000);
        let many =
            |lines: &[&str], begins: &str| lines.iter().filter(|line| line.starts_with(begins)).count();
        for (begins, least) in [("17 -", 40), ("18 -", 200), ("0 A 1 0", 40), ("0 B 1 0", 40)] {
            assert!(many(&single, begins) >= least, "{begins}");
        }
        for lines in [&single, &in_runs] {
            for begins in ["0 A 0 0", "0 B 0 0", "0 A 1 ", "0 B 1 "] {
                assert!(many(lines, begins) >= 200, "{begins}");
            }
        }
        assert!(many(&in_runs, "17 -") >= 20 && many(&in_runs, "18 -") >= 20);
    }

    /// The files are committed.
    #[test]
    fn they_are_not_long() {
        let cases = cases();
        assert!(cases.stdin.len() + cases.stdout.len() <= 500_000);
    }
}
