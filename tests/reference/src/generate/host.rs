//! Host-made states and stores: in shape, at the limits of refusal 4, and reachable by no list.

use super::aim::{fitting_call, spoil_call};
use super::display::aimed_display_call;
use super::host_edge::{edges, Edge};
use super::host_fault::break_shape;
use super::host_sent::fill_sent;
use super::malformed::spoil_text;
use super::nasty;
use super::random::Random;
use crate::node::{call, Head, Input, Lent, Meter, Operator, Reading, State, Word};
use crate::node::{GREATEST_BUCKET, LINES, METERS, SHARE};
use crate::record::AREA_BYTES;
use crate::refusal::Refusal;
use crate::text::{spell_call, Call, DisplayCall, STABLE, TENTATIVE};

/// What a host hands over from call to call.
#[derive(Clone, Debug, PartialEq, Eq)]
pub struct Host {
    pub state: State,
    pub lent: Lent,
}

impl Host {
    /// A step at the state's own clock, over an area of the least length; gives the answer.
    pub fn step(&mut self) -> u32 {
        let text = spell_call(&Call::step(self.state.clock));
        let area = &mut [0; AREA_BYTES];
        call(&mut self.state, &mut self.lent, &text, area).0
    }
}

/// One call as a host may make it.
#[derive(Clone, Debug)]
pub struct HostCase {
    pub host: Host,
    pub text: Vec<u8>,
    /// The call of a display in the place of the text's.
    pub display: Option<DisplayCall>,
    pub area: Vec<u8>,
    /// 3 or 4 where the state or store was broken on purpose; without it neither fits.
    pub fault: Option<Refusal>,
}

impl HostCase {
    /// What is called with.
    pub fn input(&self) -> Input<'_> {
        self.display
            .map_or(Input::Journal(&self.text), Input::Display)
    }
}

/// A host-made call; about every third state or store is broken in one place, and some are at an edge
/// of the state.
pub fn host_case(random: &mut Random) -> HostCase {
    if random.once_in(10) {
        let edge = random.pick(&edges());
        return edge_case(random, edge);
    }
    let host = host_state(random);
    let mut case = case_on(random, host);
    if random.once_in(3) {
        case.fault = Some(break_shape(random, &mut case.host));
    }
    case
}

/// A host-made call on a state at an edge and otherwise in shape.
pub fn edge_case(random: &mut Random, edge: Edge) -> HostCase {
    let mut host = host_state(random);
    while !edge.put(random, &mut host) {
        host = host_state(random);
    }
    HostCase {
        fault: edge.refusal(),
        ..case_on(random, host)
    }
}

/// A call on a state and stores, most often one that fits them.
fn case_on(random: &mut Random, host: Host) -> HostCase {
    let mut call = fitting_call(random, &host.state, &host.lent.store);
    for _ in 0..random.pick(&[0, 0, 0, 0, 1, 2]) {
        spoil_call(random, &host.state, &host.lent.store, &mut call);
    }
    let display = random
        .once_in(4)
        .then(|| aimed_display_call(random, &host.state));
    let mut text = spell_call(&call);
    if random.once_in(24) {
        text = spoil_text(random, &text);
    }
    let length = match random.below(16) {
        0 => random.pick(&[0, 1, 32, 2_048, AREA_BYTES - 1]),
        1 => AREA_BYTES + random.below(100) as usize,
        _ => AREA_BYTES,
    };
    HostCase {
        host,
        text,
        display,
        area: (0..length).map(|_| random.bits() as u8).collect(),
        fault: None,
    }
}

/// A state and store in shape, each field free within what refusal 4 lets pass.
pub fn host_state(random: &mut Random) -> Host {
    let mut settings = nasty::settings(random, false);
    while !settings.within_limits() {
        settings = nasty::settings(random, false);
    }
    let mut state = State::fresh(settings);
    state.clock = random.word();
    state.c = some_bucket(random, settings.bucket);
    state.p = state.c;
    state.word = random.pick(&[Word::Stable, Word::Correcting]);
    if state.c < GREATEST_BUCKET && random.once_in(2) {
        let most = i64::from(GREATEST_BUCKET - state.c);
        let any = random.between(1, most);
        let ahead = random.pick(&[1, 1, 2, 3, most, any]);
        state.p += ahead.min(most) as u32;
        state.word = Word::Failure;
    }
    number_results(random, &mut state);
    state.operator.meters = meters(random);
    state.checkpoint.meters = if random.once_in(2) {
        state.operator.meters
    } else {
        meters(random)
    };
    let places = settings.lines as usize * SHARE + random.pick(&[0, 0, 1, 300]);
    let mut store = vec![Reading::ZERO; places];
    fill_lines(random, &mut state, &mut store);
    let sent = fill_sent(random, &mut state);
    let lent = Lent { store, sent };
    Host { state, lent }
}

/// A state and store in shape whose boundaries lie some buckets past c, or short of it: few steps
/// settle it.
pub fn near_host_state(random: &mut Random) -> Host {
    let mut host = host_state(random);
    let (c, settings) = (u64::from(host.state.c), host.state.settings);
    let (lines, bucket) = (settings.lines as usize, u64::from(settings.bucket));
    for head in &mut host.state.heads[..lines] {
        let finished = (c + random.below(7)).saturating_sub(1);
        let boundary = finished * bucket + random.below(bucket);
        head.boundary = boundary.min(u64::from(u32::MAX)) as u32;
    }
    host
}

/// A bucket number, often one that boundaries can finish, often a limit.
fn some_bucket(random: &mut Random, length: u32) -> u32 {
    let last = u32::MAX / length;
    let any = random.between(0, i64::from(last)) as u32;
    let few = random.below(40) as u32;
    let limit = GREATEST_BUCKET - random.below(3) as u32;
    let at_end = (last + 1).saturating_sub(random.below(4) as u32);
    random
        .pick(&[0, few, few, any, any, at_end, limit])
        .min(GREATEST_BUCKET)
}

fn number_results(random: &mut Random, state: &mut State) {
    let most = METERS as u64 * u64::from(state.c);
    let any = random.below(most + 1);
    let stable = random.pick(&[0, most, any]);
    let greatest = METERS as u64 * u64::from(state.p);
    let between = stable + random.below(greatest - stable + 1);
    state.checkpoint.newest = stable;
    state.operator.newest = if state.p == state.c {
        stable
    } else {
        random.pick(&[stable, greatest, between])
    };
}

/// Meters with counts and sums up to the limits; some count 0 with a last value.
fn meters(random: &mut Random) -> [Meter; METERS] {
    let mut meters = Operator::CLEAR.meters;
    let density = random.pick(&[1, 4, 70]);
    for meter in &mut meters {
        if random.once_in(density) {
            let count = random.pick(&[0, 1, 2, 3, 32_767, 32_768]);
            meter.count = count;
            meter.sum = some_sum(random, count);
            meter.last = random.signed_word();
        }
    }
    meters
}

/// A sum that so many values can have: at a limit, near 0 or anywhere, often with its mean at a half.
pub fn some_sum(random: &mut Random, count: u32) -> i64 {
    let wide = i64::from(count);
    let (least, greatest) = (i64::from(i32::MIN) * wide, i64::from(i32::MAX) * wide);
    let (near, far) = (
        random.between(-9, 9) * wide,
        random.between(least, greatest),
    );
    let sum = random.pick(&[least, greatest, near, near, far]);
    let beside = random.pick(&[0, wide / 2, -(wide / 2)]) + random.pick(&[0, 0, 1, -1]);
    (sum + beside).clamp(least, greatest)
}

/// Fills the heads and the shares; what is past them may be junk.
fn fill_lines(random: &mut Random, state: &mut State, store: &mut [Reading]) {
    if random.once_in(2) {
        for place in store.iter_mut() {
            *place = junk(random);
        }
    }
    let stable = random.once_in(2);
    for line in 0..LINES {
        if line >= state.settings.lines as usize {
            if random.once_in(2) {
                state.heads[line] = junk_head(random);
            }
            continue;
        }
        state.heads[line] = some_head(random, state, stable);
        let kept = state.heads[line].kept as usize;
        let share = &mut store[line * SHARE..line * SHARE + kept];
        fill_share(random, state, share);
        if let Some(last) = share.last().filter(|_| random.once_in(2)) {
            let head = &mut state.heads[line];
            head.last_id = last.id;
            head.last_stable_id = head.last_stable_id.min(last.id);
        }
    }
}

fn junk(random: &mut Random) -> Reading {
    let any = random.bits() as u8;
    Reading {
        kind: random.pick(&[0, STABLE, TENTATIVE, b'B', any]),
        id: random.word(),
        time: random.word(),
        meter: random.bits() as u8,
        value: random.signed_word(),
        arrival: random.word(),
    }
}

fn junk_head(random: &mut Random) -> Head {
    Head {
        boundary: random.word(),
        last_id: random.word(),
        last_stable_id: random.word(),
        kept: random.word(),
    }
}

/// A head in shape; with `stable`, the boundary most often finishes bucket c.
fn some_head(random: &mut Random, state: &State, stable: bool) -> Head {
    let (one, other) = (random.word(), random.word());
    let end = (u64::from(state.c) + 1) * u64::from(state.settings.bucket);
    let off = if stable { 0 } else { random.below(3) };
    let near = (end + random.pick(&[0, 0, 1, 50])).saturating_sub(off);
    let any = u64::from(random.word());
    let some_kept = random.below(257) as u32;
    let choice = if stable {
        near
    } else {
        random.pick(&[near, near, any])
    };
    Head {
        boundary: choice.min(u64::from(u32::MAX)) as u32,
        last_id: one.max(other),
        last_stable_id: one.min(other),
        kept: random.pick(&[0, 1, 3, 20, 255, 256, some_kept]),
    }
}

/// Readings with rising ids, about the buckets that matter and in no order of times.
pub(super) fn fill_share(random: &mut Random, state: &State, share: &mut [Reading]) {
    let count = share.len() as u64;
    let any = random.below(1 << 31);
    let start = random.pick(&[0, 1, u64::from(u32::MAX) + 1 - count, any]);
    let tentative = random.pick(&[0, 0, 2, 20]);
    let few = random.once_in(2);
    for (place, reading) in share.iter_mut().enumerate() {
        let kind = if tentative > 0 && random.once_in(tentative) {
            TENTATIVE
        } else {
            STABLE
        };
        *reading = Reading {
            kind,
            id: (start + place as u64) as u32,
            time: some_time(random, state),
            meter: random.below(if few { 3 } else { METERS as u64 }) as u8,
            value: some_value(random, state),
            arrival: some_arrival(random, state),
        };
    }
}

fn some_time(random: &mut Random, state: &State) -> u32 {
    let length = u64::from(state.settings.bucket);
    let (c, p) = (u64::from(state.c), u64::from(state.p));
    let bucket = random.pick(&[c, c, c, c + 1, c.saturating_sub(1), p, p + 1]);
    let any = random.below(length);
    let inside = random.pick(&[0, 1, length - 1, any]);
    (bucket * length + inside).min(u64::from(u32::MAX)) as u32
}

fn some_value(random: &mut Random, state: &State) -> i32 {
    let (low, high) = (state.settings.low, state.settings.high);
    let any = random.signed_word();
    let inside = random.between(i64::from(low), i64::from(high)) as i32;
    let past = random.pick(&[low.saturating_sub(1), high.saturating_add(1)]);
    random.pick(&[low, high, past, any, inside, inside])
}

/// An arrival often a hold before the clock or after it, or one tick beside.
fn some_arrival(random: &mut Random, state: &State) -> u32 {
    let hold = i64::from(state.settings.hold);
    let tick = i64::from(state.clock) - hold + random.between(-1, 1);
    let any = random.word();
    match random.below(4) {
        0 => tick.clamp(0, i64::from(u32::MAX)) as u32,
        1 => state.clock.saturating_add(random.below(3) as u32),
        2 => any,
        _ => state.clock.saturating_add(1 + any % 1_000),
    }
}
