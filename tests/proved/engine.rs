//! The proved engine, called and answering as the model is and does.

use crate::hollwern::{self, Constraint, Shown};
use model::adhesion::{self, CONSTRAINTS_MOST};
use model::calls::Call;
use model::engine::{Answer, Engine, Refused};

/// An engine that only the calls of the C interface look into.
#[derive(Clone)]
pub struct Proved(hollwern::Engine);

impl Proved {
    pub fn fresh() -> Proved {
        Proved(hollwern::Engine::fresh())
    }

    /// Fresh again, in its place.
    pub fn make_fresh(&mut self) {
        self.0.make_fresh();
    }

    /// Every byte that it takes.
    pub fn bytes(&self) -> &[u8; hollwern::ENGINE_SIZE] {
        unsafe { &*(&raw const self.0).cast() }
    }

    /// One call, answered as the model answers it.
    pub fn call(&mut self, call: &Call, out: &mut [u8]) -> Result<Answer, Refused> {
        let answer = self.0.step(&call.event, &call.journey, &call.book, out);
        let hollwern::Answer { accepted, number, state, request, bytes } = answer;
        assert!(if accepted { number == 0 } else { state == 0 && !request }, "{answer:?}");
        if accepted {
            Ok(Answer { state, request, bytes })
        } else {
            Err(Refused { number, bytes })
        }
    }

    /// State, request, conditions, the standing of every point and every row are the model's.
    pub fn shows(&self, model: &Engine) -> bool {
        let now = &model.now;
        let mut standings = [0; 64];
        let mut point_count = 0;
        for (code, standing) in standings.iter_mut().zip(model.standings()) {
            *code = standing as u8;
            point_count += 1;
        }
        let (state, request, conditions) = (now.state, now.request, now.conditions);
        let constraint_count = model.constraints.len() as u8;
        let shown = Shown { state, request, conditions, point_count, standings, constraint_count };
        let row = |k: usize| self.0.show_constraint(k) == constraint(&model.constraints, k);
        self.0.show() == shown && row_indices().all(row)
    }
}

/// Those of all rows that there can be, and some beyond.
pub fn row_indices() -> impl Iterator<Item = usize> {
    (0..=CONSTRAINTS_MOST).chain([256, usize::MAX])
}

/// A row of the model's as the C interface must hand it over: blank where there is none.
pub fn constraint(rows: &[adhesion::Constraint], k: usize) -> Constraint {
    rows.get(k).map_or(Constraint::default(), |row| {
        let &adhesion::Constraint { nidc, nidsp, category, range, start, end } = row;
        Constraint { nidsp, start, end, nidc, category, range }
    })
}
