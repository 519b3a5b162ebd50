//! What a set of inputs reaches: answers, records, states, rules and edges, each counted.

use std::collections::BTreeMap;
use std::fmt;

use super::groups::{cannot_come, DISPLAY_CALL, GROUPS, REFUSED_FOR_PLACES, SEND_BACK};
use super::lines_of;
use crate::node::{free_places, is_half, make, open, refusal_of_sender, rule};
use crate::node::{Input, Lent, Reading, Rule, State, FETCH_LIMIT, HELD, LINES, SHARE};
use crate::playback::{acknowledge_all, Mode};
use crate::record::{decode, Record, AREA_BYTES, AREA_RECORDS, RECORD_BYTES};
use crate::refusal::answer;
use crate::text::{next_line, read_call, Call, DisplayCall, Wish, BOUNDARY, STEP};

/// How often each thing came in a program.
#[derive(Clone, Debug)]
pub struct Coverage {
    mode: Mode,
    inputs: u64,
    calls: u64,
    counts: BTreeMap<(&'static str, String), u64>,
}

impl Coverage {
    /// Nothing yet.
    pub fn new(mode: Mode) -> Self {
        Coverage {
            mode,
            inputs: 0,
            calls: 0,
            counts: BTreeMap::new(),
        }
    }

    /// Plays an input on the reference's node and counts what it reaches.
    pub fn note(&mut self, input: &[u8]) {
        self.inputs += 1;
        let settings = next_line(input);
        let mut lent = Lent::zeroed();
        let opened = open(settings, &mut lent);
        self.count("answer", answer(&opened));
        let word = opened.as_ref().map_or("none", |state| state.word.name());
        self.count("state", word);
        let Ok(mut state) = opened else {
            return;
        };
        if state.settings.lines == LINES as u32 {
            self.count("edge", "eight lines");
        }
        if state.settings.window == 16 {
            self.count("edge", "window 16");
        }
        let mut area = [0; AREA_BYTES];
        for line in lines_of(&input[settings.len()..]) {
            self.note_line(&mut state, &mut lent, line, &mut area);
            if self.mode == Mode::Replay {
                acknowledge_all(&mut state, &mut lent);
            }
        }
    }

    fn note_line(&mut self, state: &mut State, lent: &mut Lent, line: &[u8], area: &mut [u8]) {
        self.calls += 1;
        let input = match self.mode {
            Mode::Merge | Mode::Replay => Input::Journal(line),
            Mode::Console => Input::of_line(line),
        };
        let call = read_call(line);
        if let Some(call) = call {
            if refusal_of_sender(state, &lent.store, &call).is_none() {
                self.note_accepted(state, &lent.store, &call);
            }
        }
        let before = state.clone();
        let (answer, records) = make(state, lent, input, area);
        match input {
            Input::Journal(_) => {
                self.note_records(area, records);
                if free_places(&before) == 0 && records == 1 && area[0] == BOUNDARY {
                    self.count(SEND_BACK, "512 and a window without results");
                }
                if answer == 15 {
                    self.note_refused_for_places(state);
                }
            }
            Input::Display(call) => self.note_display(&before, state, &call, (answer, records)),
        }
        self.note_held(state);
        self.count("answer", answer);
        self.count("state", state.word.name());
        if state.lines().iter().any(|head| head.kept == SHARE as u32) {
            self.count("edge", "256 kept");
        }
    }

    fn note_records(&mut self, area: &[u8], records: usize) {
        for bytes in area.chunks_exact(RECORD_BYTES).take(records) {
            let record = decode(bytes).expect("a record just laid down");
            self.count("record", char::from(record.kind));
            self.note_mean(&record);
        }
        if records == AREA_RECORDS {
            self.count("edge", "65 records");
        }
    }

    /// Counts how full the send-back store is.
    fn note_held(&mut self, state: &State) {
        let name = match free_places(state) {
            0 => "512 held",
            HELD => "none held",
            _ => "some held",
        };
        self.count(SEND_BACK, name);
    }

    fn note_refused_for_places(&mut self, state: &State) {
        self.count(REFUSED_FOR_PLACES, state.word.name());
        let free = free_places(state) > 0;
        let name = if free { "some free" } else { "none free" };
        self.count(REFUSED_FOR_PLACES, name);
    }

    /// Counts the call of a display by what it gave and left.
    fn note_display(
        &mut self,
        before: &State,
        after: &State,
        call: &DisplayCall,
        (answer, records): (u32, usize),
    ) {
        if answer != 0 {
            if before.word.name() == "failure" {
                self.count(DISPLAY_CALL, "refused while failure");
            }
            return;
        }
        let last = before.displays()[call.display as usize - 1];
        let given_up = after.least_acknowledged() - before.least_acknowledged();
        if call.wish == Wish::Fetch {
            self.count(
                DISPLAY_CALL,
                match records as u64 {
                    0 => "fetch from the next",
                    FETCH_LIMIT => "fetch of 64",
                    _ => "fetch of fewer",
                },
            );
            if call.id <= last {
                self.count(DISPLAY_CALL, "fetch of what it has acknowledged");
            }
            return;
        }
        self.count(
            DISPLAY_CALL,
            match call.id {
                id if id == last => "ack of the last again",
                _ if given_up == 0 => "ack that frees none",
                _ if free_places(after) == HELD => "ack of all",
                _ => "ack that frees some",
            },
        );
        if given_up > 0 && after.least_acknowledged() < call.id {
            self.count(DISPLAY_CALL, "ack while others are behind");
        }
    }

    /// Counts the mean of a sum that lies exactly between two whole numbers, by which it is.
    fn note_mean(&mut self, record: &Record) {
        if !is_half(record.sum, record.count) {
            return;
        }
        let up = i64::from(record.mean) * i64::from(record.count) > record.sum;
        let name = match (up, record.sum > 0) {
            (true, true) => "up above 0",
            (false, true) => "down above 0",
            (true, false) => "up below 0",
            (false, false) => "down below 0",
        };
        self.count("mean of a half", name);
    }

    /// Counts the kind of a call about to be accepted in this state and, for a step, its rule.
    fn note_accepted(&mut self, state: &State, store: &[Reading], call: &Call) {
        let group = match state.word.name() {
            "stable" => "accepted while stable",
            "failure" => "accepted while failure",
            _ => "accepted while correcting",
        };
        self.count(group, char::from(call.kind));
        if call.kind == STEP {
            let mut then = state.clone();
            then.clock = call.now;
            let number = match rule(&then, store) {
                Rule::Withdraw => 1,
                Rule::WorkStable => 2,
                Rule::CloseCorrection => 3,
                Rule::WorkTentative => 4,
                Rule::Idle => 5,
            };
            self.count("rule", number);
        }
    }

    fn count(&mut self, group: &'static str, name: impl fmt::Display) {
        *self.counts.entry((group, name.to_string())).or_default() += 1;
    }

    fn of(&self, group: &'static str, name: &str) -> u64 {
        let key = (group, name.to_string());
        self.counts.get(&key).copied().unwrap_or(0)
    }

    /// What never came though it could.
    pub fn never(&self) -> Vec<String> {
        let all = GROUPS
            .iter()
            .flat_map(|&(group, names)| names.iter().map(move |&name| (group, name)));
        all.filter(|&thing| !cannot_come(self.mode, thing))
            .filter(|&(group, name)| self.of(group, name) == 0)
            .map(|(group, name)| format!("{group} {name}"))
            .collect()
    }
}

impl fmt::Display for Coverage {
    fn fmt(&self, out: &mut fmt::Formatter) -> fmt::Result {
        write!(out, "{} inputs, {} calls", self.inputs, self.calls)?;
        for (group, names) in GROUPS {
            let due = names
                .iter()
                .filter(|&&name| !cannot_come(self.mode, (group, name)));
            let counts: Vec<String> = due
                .map(|name| format!("{name}: {}", self.of(group, name)))
                .collect();
            if !counts.is_empty() {
                write!(out, "\n  {group}  {}", counts.join(", "))?;
            }
        }
        Ok(())
    }
}
