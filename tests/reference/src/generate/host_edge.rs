//! States at the edges that refusal 4 has in meters and heads: at a bound, one past it, and with junk
//! where it does not look.

use super::host::{fill_share, some_sum, Host};
use super::random::Random;
use crate::node::{Head, Meter, State, LINES, METERS, SHARE};
use crate::refusal::Refusal;

/// Whose meters.
#[derive(Clone, Copy, Debug, PartialEq, Eq)]
pub enum Row {
    Operator,
    Checkpoint,
}

/// Where among the meters, or among the lines that the settings have.
#[derive(Clone, Copy, Debug, PartialEq, Eq)]
pub enum Place {
    First,
    Middle,
    Last,
}

/// What the numbers of a meter are at.
#[derive(Clone, Copy, Debug, PartialEq, Eq)]
pub enum MeterEdge {
    GreatestCount,
    CountPast,
    LeastSum,
    SumBelow,
    GreatestSum,
    SumAbove,
    LeastOfAll,
    GreatestOfAll,
}

/// What the numbers of a head are at.
#[derive(Clone, Copy, Debug, PartialEq, Eq)]
pub enum HeadEdge {
    Full,
    OverFull,
    StableAtLast,
    StableAbove,
}

/// One edge of a state.
#[derive(Clone, Copy, Debug, PartialEq, Eq)]
pub enum Edge {
    Meter(Row, Place, MeterEdge),
    Head(Place, HeadEdge),
    /// Heads that no line has, out of shape.
    PastLines,
    /// Last values as far from 0 as can be, also where nothing is counted.
    Lasts(Row),
}

const ROWS: [Row; 2] = [Row::Operator, Row::Checkpoint];
const PLACES: [Place; 3] = [Place::First, Place::Middle, Place::Last];
const METER_EDGES: [MeterEdge; 8] = [
    MeterEdge::GreatestCount,
    MeterEdge::CountPast,
    MeterEdge::LeastSum,
    MeterEdge::SumBelow,
    MeterEdge::GreatestSum,
    MeterEdge::SumAbove,
    MeterEdge::LeastOfAll,
    MeterEdge::GreatestOfAll,
];
const HEAD_EDGES: [HeadEdge; 4] = [
    HeadEdge::Full,
    HeadEdge::OverFull,
    HeadEdge::StableAtLast,
    HeadEdge::StableAbove,
];

/// The greatest count of a meter.
const MOST: u32 = 32_768;

/// All edges, those that are alike in rows and places far from each other.
pub fn edges() -> Vec<Edge> {
    let mut edges = Vec::new();
    for place in PLACES {
        for row in ROWS {
            edges.extend(METER_EDGES.map(|edge| Edge::Meter(row, place, edge)));
        }
        edges.extend(HEAD_EDGES.map(|edge| Edge::Head(place, edge)));
    }
    edges.push(Edge::PastLines);
    edges.extend(ROWS.map(Edge::Lasts));
    edges
}

impl Edge {
    /// What is at the edge, wherever it is.
    pub fn name(self) -> &'static str {
        match self {
            Edge::Meter(_, _, edge) => edge.name(),
            Edge::Head(_, HeadEdge::Full) => "kept 256",
            Edge::Head(_, HeadEdge::OverFull) => "kept 257",
            Edge::Head(_, HeadEdge::StableAtLast) => "stable id at last",
            Edge::Head(_, HeadEdge::StableAbove) => "stable id above last",
            Edge::PastLines => "heads past lines",
            Edge::Lasts(_) => "lasts",
        }
    }

    /// The refusal that fits at this edge, if one does.
    pub fn refusal(self) -> Option<Refusal> {
        let past = match self {
            Edge::Meter(_, _, edge) => edge.is_past(),
            Edge::Head(_, edge) => matches!(edge, HeadEdge::OverFull | HeadEdge::StableAbove),
            Edge::PastLines | Edge::Lasts(_) => false,
        };
        past.then_some(Refusal::OutOfShape)
    }

    /// Brings a state and store in shape to this edge; false where it has no such place.
    pub(super) fn put(self, random: &mut Random, host: &mut Host) -> bool {
        match self {
            Edge::Meter(row, place, edge) => {
                let number = match place {
                    Place::First => 0,
                    Place::Middle => some_middle(random, METERS),
                    Place::Last => METERS - 1,
                };
                edge.put(random, &mut meters_mut(row, &mut host.state)[number]);
            }
            Edge::Head(place, edge) => {
                let lines = host.state.settings.lines as usize;
                let line = match place {
                    Place::First => 0,
                    Place::Middle if lines >= 3 => some_middle(random, lines),
                    Place::Last if lines >= 2 => lines - 1,
                    _ => return false,
                };
                put_head(edge, random, host, line);
            }
            Edge::PastLines => {
                let past = &mut host.state.heads[host.state.settings.lines as usize..];
                past.fill_with(|| Head {
                    boundary: random.word(),
                    last_id: random.pick(&[0, u32::MAX - 1]),
                    last_stable_id: u32::MAX,
                    kept: random.pick(&[SHARE as u32 + 1, u32::MAX]),
                });
            }
            Edge::Lasts(row) => {
                for meter in meters_mut(row, &mut host.state) {
                    meter.last = random.pick(&[i32::MIN, i32::MAX]);
                }
            }
        }
        self.is_in(&host.state)
    }

    /// Whether a state, its settings within their limits, is at this edge.
    pub fn is_in(self, state: &State) -> bool {
        match self {
            Edge::Meter(row, place, edge) => {
                let meters = meters(row, state);
                part(place, meters).iter().any(|meter| edge.is_in(meter))
            }
            Edge::Head(place, edge) => {
                let heads = part(place, state.lines());
                heads.iter().any(|head| is_at(edge, head))
            }
            Edge::PastLines => {
                let lines = state.lines().len();
                let wrong =
                    |head: &Head| head.kept as usize > SHARE && head.last_stable_id > head.last_id;
                lines < LINES && state.heads[lines..].iter().all(wrong)
            }
            Edge::Lasts(row) => {
                let far = [i32::MIN, i32::MAX];
                let lasts = meters(row, state).map(|meter| meter.last);
                lasts.iter().all(|last| far.contains(last))
                    && far.iter().all(|last| lasts.contains(last))
            }
        }
    }
}

fn meters(row: Row, state: &State) -> &[Meter; METERS] {
    match row {
        Row::Operator => &state.operator.meters,
        Row::Checkpoint => &state.checkpoint.meters,
    }
}

fn meters_mut(row: Row, state: &mut State) -> &mut [Meter; METERS] {
    match row {
        Row::Operator => &mut state.operator.meters,
        Row::Checkpoint => &mut state.checkpoint.meters,
    }
}

/// A place among so many, three at least, that is neither the first nor the last.
fn some_middle(random: &mut Random, count: usize) -> usize {
    let any = 1 + random.below(count as u64 - 2) as usize;
    random.pick(&[count / 2, any])
}

/// What is at the place; one alone is the first and not the last.
fn part<T>(place: Place, all: &[T]) -> &[T] {
    let count = all.len();
    match place {
        Place::First => &all[..1],
        Place::Middle if count >= 3 => &all[1..count - 1],
        Place::Last if count >= 2 => &all[count - 1..],
        _ => &[],
    }
}

/// The least and the greatest sum of so many values.
fn sums(count: u32) -> (i64, i64) {
    let count = i64::from(count);
    (i64::from(i32::MIN) * count, i64::from(i32::MAX) * count)
}

impl MeterEdge {
    fn name(self) -> &'static str {
        match self {
            MeterEdge::GreatestCount => "count 32768",
            MeterEdge::CountPast => "count 32769",
            MeterEdge::LeastSum => "least sum",
            MeterEdge::SumBelow => "sum one below",
            MeterEdge::GreatestSum => "greatest sum",
            MeterEdge::SumAbove => "sum one above",
            MeterEdge::LeastOfAll => "least of 64 bits",
            MeterEdge::GreatestOfAll => "greatest of 64 bits",
        }
    }

    fn is_past(self) -> bool {
        let within = [
            MeterEdge::GreatestCount,
            MeterEdge::LeastSum,
            MeterEdge::GreatestSum,
        ];
        !within.contains(&self)
    }

    fn put(self, random: &mut Random, meter: &mut Meter) {
        meter.count = match self {
            MeterEdge::GreatestCount => MOST,
            MeterEdge::CountPast => MOST + 1,
            MeterEdge::LeastSum | MeterEdge::GreatestSum => random.pick(&[1, 3, MOST]),
            _ => random.pick(&[0, 1, MOST]),
        };
        let (least, greatest) = sums(meter.count);
        meter.sum = match self {
            MeterEdge::GreatestCount | MeterEdge::CountPast => some_sum(random, meter.count),
            MeterEdge::LeastSum => least,
            MeterEdge::SumBelow => least - 1,
            MeterEdge::GreatestSum => greatest,
            MeterEdge::SumAbove => greatest + 1,
            MeterEdge::LeastOfAll => i64::MIN,
            MeterEdge::GreatestOfAll => i64::MAX,
        };
    }

    fn is_in(self, meter: &Meter) -> bool {
        let (least, greatest) = sums(meter.count);
        let sum_is = |sum: i64| meter.count <= MOST && meter.sum == sum;
        match self {
            MeterEdge::GreatestCount => meter.count == MOST,
            MeterEdge::CountPast => meter.count == MOST + 1,
            MeterEdge::LeastSum => meter.count > 0 && sum_is(least),
            MeterEdge::SumBelow => sum_is(least - 1),
            MeterEdge::GreatestSum => meter.count > 0 && sum_is(greatest),
            MeterEdge::SumAbove => sum_is(greatest + 1),
            MeterEdge::LeastOfAll => sum_is(i64::MIN),
            MeterEdge::GreatestOfAll => sum_is(i64::MAX),
        }
    }
}

/// Brings a line's head to an edge; a share that is full, or more than that, is full of readings in
/// shape, so that nothing but the count can be wrong.
fn put_head(edge: HeadEdge, random: &mut Random, host: &mut Host, line: usize) {
    if matches!(edge, HeadEdge::Full | HeadEdge::OverFull) {
        let share = &mut host.lent.store[line * SHARE..(line + 1) * SHARE];
        fill_share(random, &host.state, share);
    }
    let head = &mut host.state.heads[line];
    match edge {
        HeadEdge::Full => head.kept = SHARE as u32,
        HeadEdge::OverFull => head.kept = SHARE as u32 + 1,
        HeadEdge::StableAtLast => head.last_stable_id = head.last_id,
        HeadEdge::StableAbove => {
            head.last_id = head.last_id.min(u32::MAX - 1);
            head.last_stable_id = head.last_id + 1;
        }
    }
}

fn is_at(edge: HeadEdge, head: &Head) -> bool {
    match edge {
        HeadEdge::Full => head.kept as usize == SHARE,
        HeadEdge::OverFull => head.kept as usize == SHARE + 1,
        HeadEdge::StableAtLast => head.last_stable_id == head.last_id,
        HeadEdge::StableAbove => head.last_stable_id.checked_sub(1) == Some(head.last_id),
    }
}
