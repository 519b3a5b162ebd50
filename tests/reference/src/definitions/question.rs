//! Questions to the definitions, with the answers of this reference.

use super::columns::Columns;
use super::tally::{sort_of_answer, sort_of_call, sort_of_display_call};
use crate::node::{call, make, open, Input, Lent, Reading, State};
use crate::record::{decode, Record, AREA_BYTES, RECORD_BYTES};
use crate::refusal::answer;
use crate::text::{read_call, spell_call, Call, DisplayCall};

/// What a host hands over and gets back; an opening is lent no area.
#[derive(Clone, Debug, PartialEq, Eq)]
pub(super) struct Loan {
    pub(super) state: State,
    pub(super) columns: Columns,
    pub(super) sent: Vec<u8>,
    pub(super) area: Vec<u8>,
}

impl Loan {
    /// The stores, that of the columns as long as the shortest.
    fn lent(&self) -> Lent {
        let columns = &self.columns;
        let reading = |place: usize| Reading {
            kind: columns.kinds[place],
            id: columns.ids[place],
            time: columns.times[place],
            meter: columns.meters[place],
            value: columns.values[place],
            arrival: columns.arrivals[place],
        };
        Lent {
            store: (0..columns.length()).map(reading).collect(),
            sent: self.sent.clone(),
        }
    }
}

/// What a call or an opening answers and leaves; an opening has no records.
#[derive(Clone, Debug, PartialEq, Eq)]
pub(super) struct Left {
    pub(super) answer: u32,
    pub(super) records: usize,
    pub(super) loan: Loan,
}

/// A call or an opening on what a host lends.
pub(super) struct HostQuestion {
    pub(super) loan: Loan,
    pub(super) text: Vec<u8>,
    /// The call of a display in the place of the text's.
    pub(super) display: Option<DisplayCall>,
    pub(super) left: Left,
    pub(super) sort: &'static str,
}

impl HostQuestion {
    pub(super) fn of_call(loan: Loan, text: Vec<u8>, display: Option<DisplayCall>) -> Self {
        let (before, mut lent) = (loan.lent(), loan.lent());
        let (mut state, mut area) = (loan.state.clone(), loan.area.clone());
        let input = display.map_or(Input::Journal(&text), Input::Display);
        let (answer, records) = make(&mut state, &mut lent, input, &mut area);
        let sort = match display {
            Some(call) if answer == 0 => sort_of_display_call(&loan.state, &state, call, records),
            Some(_) => sort_of_answer(answer),
            None => sort_of_call(
                &loan.state,
                &before.store,
                read_call(&text).as_ref(),
                answer,
            ),
        };
        let columns = loan.columns.with_store(&lent.store);
        let left = Left {
            answer,
            records,
            loan: Loan {
                state,
                columns,
                sent: lent.sent,
                area,
            },
        };
        HostQuestion {
            loan,
            text,
            display,
            left,
            sort,
        }
    }

    pub(super) fn of_opening(loan: Loan, text: Vec<u8>) -> Self {
        let mut lent = loan.lent();
        let opened = open(&text, &mut lent);
        let answer = answer(&opened);
        let left = Left {
            answer,
            records: 0,
            loan: Loan {
                state: opened.unwrap_or(loan.state.clone()),
                columns: loan.columns.with_store(&lent.store),
                sent: lent.sent,
                area: loan.area.clone(),
            },
        };
        HostQuestion {
            loan,
            text,
            display: None,
            left,
            sort: sort_of_answer(answer),
        }
    }
}

/// A call on a node that is in shape.
pub(super) struct NodeQuestion {
    pub(super) state: State,
    pub(super) lent: Lent,
    pub(super) call: Call,
    pub(super) answer: u32,
    pub(super) after: State,
    pub(super) lent_after: Lent,
    pub(super) records: Vec<Record>,
    pub(super) sort: &'static str,
}

impl NodeQuestion {
    pub(super) fn ask(state: State, lent: Lent, asked: Call) -> Self {
        let (mut after, mut lent_after) = (state.clone(), lent.clone());
        let mut area = [0; AREA_BYTES];
        let text = spell_call(&asked);
        let (answer, records) = call(&mut after, &mut lent_after, &text, &mut area);
        let laid = area.chunks_exact(RECORD_BYTES).take(records);
        NodeQuestion {
            sort: sort_of_call(&state, &lent.store, Some(&asked), answer),
            state,
            lent,
            call: asked,
            answer,
            after,
            lent_after,
            records: laid
                .map(|bytes| decode(bytes).expect("a record just laid down"))
                .collect(),
        }
    }
}
