//! The lists of accesses with their answers.

use crate::access::{Access, Answer};
use crate::drive::builder::Builder;
use crate::drive::coverage::{required, Coverage};
use crate::drive::plans::{plans, Plan, NUMBERED};
use crate::rng::Rng;
use crate::seeds::Seeds;
use crate::settings::Settings;
use crate::world::World;

use super::{text, worlds};

pub const SEEDS: Seeds = Seeds::new(1, &NUMBERED);
/// A list has at least so many accesses.
const LENGTH: usize = 50;

/// A list with its answers, and the worlds before and after it.
pub struct Run {
    /// What the list shows.
    pub name: &'static str,
    /// The settings, where the list starts from a fresh card.
    settings: Option<Settings>,
    first: World,
    entries: Vec<(Access, Answer)>,
    last: World,
}

/// All lists. Between them they reach every required fact, or this panics.
pub fn runs() -> Vec<Run> {
    let mut coverage = Coverage::default();
    let runs: Vec<Run> = plans()
        .into_iter()
        .map(|plan| build(plan, &mut coverage))
        .collect();
    coverage.assert_reached(required::facts());
    let count = |holds: fn(&Run) -> bool| runs.iter().filter(|run| holds(run)).count();
    assert!(count(|run| run.first.card.settings != Settings::REPLAY) >= runs.len() / 2);
    assert!(count(|run| run.settings.is_none()) >= 4);
    runs
}

fn build(plan: Plan, coverage: &mut Coverage) -> Run {
    let mut rng = Rng::new(SEEDS.of(plan.name));
    let given = plan.first.settings();
    let first = worlds::first(
        &plan.first,
        plan.shared_length,
        plan.window_length,
        &mut rng,
    );
    let mut builder = Builder::new(first.clone(), rng, coverage);
    builder.follow(&plan, LENGTH);
    Run {
        name: plan.name,
        settings: plan.first.is_fresh().then_some(given),
        first,
        entries: builder.entries,
        last: builder.world,
    }
}

impl Run {
    pub fn text(&self) -> String {
        let first = worlds::first_text(self.settings, &self.first);
        let entries = self
            .entries
            .iter()
            .map(|(access, answer)| text::entry(access, answer));
        let definitions = format!(
            "first : World\nfirst ={first}\n\n\
             entries : List (Entry Access Answer)\nentries =\n{}\n\
             last : World\nlast ={}\n\n{AGREES}",
            text::entries(entries),
            worlds::text(&self.last)
        );
        text::file(
            "a list of accesses with its answers, and what it leaves",
            &definitions,
        )
    }
}

const AGREES: &str = "\
agrees : RunAgrees first entries last
unfolding first entries last access sound fresh_card read_dword write_dword
agrees = refl
";
