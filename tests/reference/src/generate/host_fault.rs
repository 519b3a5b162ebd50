//! Faults that take a state and store in shape out of it, one for each part of refusals 3 and 4.

use super::host::Host;
use super::random::Random;
use crate::node::{held, place_of, Meter, Reading, State, Word};
use crate::node::{GREATEST_BUCKET, HELD, SENT_BYTES, SHARE};
use crate::refusal::Refusal;

/// One way to break a state and store in shape; none where it cannot be done to this one.
type Fault = fn(&mut Random, &mut Host) -> Option<Refusal>;

/// All ways, each most often one past the limit.
pub const FAULTS: [Fault; 26] = [
    short_store,
    short_sent,
    many_lines_short,
    many_lines,
    no_lines,
    bucket_limit,
    window_limit,
    hold_limit,
    low_above_high,
    displays_limit,
    over_full,
    wrong_kind,
    wrong_meter,
    id_not_rising,
    stable_above_last,
    past_greatest_bucket,
    c_above_p,
    word_against_buckets,
    stable_numbering,
    newest_numbering,
    meter_count,
    meter_sum,
    acknowledged_above,
    acknowledged_below,
    held_kind,
    held_id,
];

/// Breaks a state and store in one place and says which refusal then fits.
pub fn break_shape(random: &mut Random, host: &mut Host) -> Refusal {
    loop {
        let fault = random.pick(&FAULTS);
        if let Some(refusal) = fault(random, host) {
            return refusal;
        }
    }
}

const SHAPE: Option<Refusal> = Some(Refusal::OutOfShape);

fn short_store(random: &mut Random, host: &mut Host) -> Option<Refusal> {
    let due = host.state.settings.lines as usize * SHARE;
    let length = random.pick(&[0, due - 1, due - 1, due - SHARE]);
    host.lent.store.truncate(length);
    Some(Refusal::StoreShort)
}

fn short_sent(random: &mut Random, host: &mut Host) -> Option<Refusal> {
    let most = SENT_BYTES - 1;
    let length = random.pick(&[0, most, most, SENT_BYTES - 32]);
    host.lent.sent.truncate(length);
    Some(Refusal::StoreShort)
}

fn many_lines_short(random: &mut Random, host: &mut Host) -> Option<Refusal> {
    host.state.settings.lines = random.pick(&[u32::MAX, 1 << 24, 100]);
    Some(Refusal::StoreShort)
}

fn many_lines(random: &mut Random, host: &mut Host) -> Option<Refusal> {
    host.state.settings.lines = random.pick(&[9, 9, 16, 20]);
    let places = host.state.settings.lines as usize * SHARE;
    host.lent.store.resize(places, Reading::ZERO);
    SHAPE
}

fn no_lines(random: &mut Random, host: &mut Host) -> Option<Refusal> {
    host.state.settings.lines = 0;
    if random.once_in(2) {
        host.lent.store.clear();
    }
    SHAPE
}

fn bucket_limit(random: &mut Random, host: &mut Host) -> Option<Refusal> {
    host.state.settings.bucket = random.pick(&[0, 99, 36_001, u32::MAX]);
    SHAPE
}

fn window_limit(random: &mut Random, host: &mut Host) -> Option<Refusal> {
    host.state.settings.window = random.pick(&[0, 17, u32::MAX]);
    SHAPE
}

fn hold_limit(random: &mut Random, host: &mut Host) -> Option<Refusal> {
    host.state.settings.hold = random.pick(&[864_001, u32::MAX]);
    SHAPE
}

fn low_above_high(random: &mut Random, host: &mut Host) -> Option<Refusal> {
    let pairs = [(1, 0), (i32::MAX, i32::MIN), (0, -1)];
    (host.state.settings.low, host.state.settings.high) = random.pick(&pairs);
    SHAPE
}

fn displays_limit(random: &mut Random, host: &mut Host) -> Option<Refusal> {
    host.state.settings.displays = random.pick(&[0, 5, 5, u32::MAX]);
    SHAPE
}

fn some_line(random: &mut Random, state: &State) -> usize {
    random.below(u64::from(state.settings.lines)) as usize
}

fn over_full(random: &mut Random, host: &mut Host) -> Option<Refusal> {
    let line = some_line(random, &host.state);
    host.state.heads[line].kept = random.pick(&[257, 257, 512, u32::MAX]);
    SHAPE
}

/// The place in the store of some kept reading, and its place in its share.
fn some_kept(random: &mut Random, state: &State) -> Option<(usize, usize)> {
    let line = some_line(random, state);
    let kept = state.heads[line].kept as usize;
    let any = random.below(kept.max(1) as u64) as usize;
    let place = random.pick(&[0, any, kept.saturating_sub(1)]);
    (kept > 0).then_some((line * SHARE + place, place))
}

fn wrong_kind(random: &mut Random, host: &mut Host) -> Option<Refusal> {
    let (place, _) = some_kept(random, &host.state)?;
    host.lent.store[place].kind = random.pick(&[0, 1, b'B', b'U', b's', b't', b'R', 255]);
    SHAPE
}

fn wrong_meter(random: &mut Random, host: &mut Host) -> Option<Refusal> {
    let (place, _) = some_kept(random, &host.state)?;
    host.lent.store[place].meter = random.pick(&[64, 64, 65, 128, 255]);
    SHAPE
}

fn id_not_rising(random: &mut Random, host: &mut Host) -> Option<Refusal> {
    let (place, in_share) = some_kept(random, &host.state)?;
    if in_share == 0 {
        return None;
    }
    let before = host.lent.store[place - 1].id;
    host.lent.store[place].id = random.pick(&[before, before, before.saturating_sub(1), 0]);
    SHAPE
}

fn stable_above_last(random: &mut Random, host: &mut Host) -> Option<Refusal> {
    let line = some_line(random, &host.state);
    let head = &mut host.state.heads[line];
    head.last_id = head.last_id.min(u32::MAX - 1);
    head.last_stable_id = random.pick(&[head.last_id + 1, u32::MAX]);
    SHAPE
}

fn past_greatest_bucket(random: &mut Random, host: &mut Host) -> Option<Refusal> {
    host.state.p = random.pick(&[GREATEST_BUCKET + 1, u32::MAX]);
    if host.state.word != Word::Failure {
        host.state.c = host.state.p;
    }
    SHAPE
}

fn c_above_p(random: &mut Random, host: &mut Host) -> Option<Refusal> {
    host.state.c = random.pick(&[host.state.p + 1, u32::MAX]);
    SHAPE
}

fn word_against_buckets(random: &mut Random, host: &mut Host) -> Option<Refusal> {
    host.state.word = if host.state.word == Word::Failure {
        random.pick(&[Word::Stable, Word::Correcting])
    } else {
        Word::Failure
    };
    SHAPE
}

fn stable_numbering(random: &mut Random, host: &mut Host) -> Option<Refusal> {
    let most = 64 * u64::from(host.state.c);
    host.state.checkpoint.newest = random.pick(&[most + 1, most + 1, 1 << 32, u64::MAX]);
    if random.once_in(2) {
        host.state.operator.newest = host.state.operator.newest.max(host.state.checkpoint.newest);
    }
    SHAPE
}

fn newest_numbering(random: &mut Random, host: &mut Host) -> Option<Refusal> {
    let stable = host.state.checkpoint.newest;
    let most = 64 * u64::from(host.state.p);
    let above = random.pick(&[most + 1, most + 1, 1 << 32, u64::MAX]);
    let beside = if host.state.p == host.state.c {
        stable + 1
    } else {
        above
    };
    let below = stable.checked_sub(1).unwrap_or(above);
    host.state.operator.newest = random.pick(&[above, beside, below]);
    SHAPE
}

/// Some meter of the operator or of the checkpoint, often the first or the last.
fn some_meter<'a>(random: &mut Random, host: &'a mut Host) -> &'a mut Meter {
    let any = random.below(64) as usize;
    let number = random.pick(&[0, 63, any, any]);
    if random.once_in(2) {
        &mut host.state.operator.meters[number]
    } else {
        &mut host.state.checkpoint.meters[number]
    }
}

fn meter_count(random: &mut Random, host: &mut Host) -> Option<Refusal> {
    let meter = some_meter(random, host);
    meter.count = random.pick(&[32_769, 32_769, 34_816, u32::MAX]);
    meter.sum = random.pick(&[0, meter.sum]);
    SHAPE
}

fn meter_sum(random: &mut Random, host: &mut Host) -> Option<Refusal> {
    let meter = some_meter(random, host);
    let least = i64::from(i32::MIN) * i64::from(meter.count);
    let greatest = i64::from(i32::MAX) * i64::from(meter.count);
    meter.sum = random.pick(&[least - 1, greatest + 1, i64::MIN, i64::MAX]);
    SHAPE
}

/// What some display has acknowledged.
fn some_display<'a>(random: &mut Random, host: &'a mut Host) -> &'a mut u64 {
    let number = random.below(u64::from(host.state.settings.displays));
    &mut host.state.acknowledged[number as usize]
}

fn acknowledged_above(random: &mut Random, host: &mut Host) -> Option<Refusal> {
    let newest = host.state.newest_stable();
    let far = random.pick(&[newest + 1, newest + 1, newest + 513, 1 << 40, u64::MAX]);
    *some_display(random, host) = far;
    SHAPE
}

fn acknowledged_below(random: &mut Random, host: &mut Host) -> Option<Refusal> {
    let far = host.state.newest_stable().checked_sub(HELD as u64 + 1)?;
    *some_display(random, host) = random.pick(&[far, far, far / 2, 0]);
    SHAPE
}

/// The place of some held result, at either end of those held or between.
fn some_held<'a>(random: &mut Random, host: &'a mut Host) -> Option<(u64, &'a mut [u8])> {
    let ids = held(&host.state);
    let (first, last) = (*ids.start(), *ids.end());
    if first > last {
        return None;
    }
    let any = first + random.below(last - first + 1);
    let id = random.pick(&[first, last, any]);
    Some((id, &mut host.lent.sent[place_of(id)]))
}

fn held_kind(random: &mut Random, host: &mut Host) -> Option<Refusal> {
    let (_, place) = some_held(random, host)?;
    place[0] = random.pick(&[0, 1, b'T', b'U', b'B', b'R', b'D', b's', 255]);
    SHAPE
}

fn held_id(random: &mut Random, host: &mut Host) -> Option<Refusal> {
    let (id, place) = some_held(random, host)?;
    let own = id as u32;
    let other = random.pick(&[
        own.wrapping_sub(1),
        own.wrapping_add(1),
        own.wrapping_add(HELD as u32),
        own.swap_bytes(),
        0,
    ]);
    place[4..8].copy_from_slice(&other.to_le_bytes());
    (other != own).then_some(Refusal::OutOfShape)
}
