//! The lists of calls with their answers.

use crate::call::{Call, Given};
use crate::drive::calls::{burst_lists, lists, CallList};
use crate::rng::Rng;

use super::runs::SEEDS;
use super::{text, worlds};

/// The text of each list, by its name.
pub fn texts() -> Vec<(&'static str, String)> {
    let without_bursts = lists()
        .into_iter()
        .map(|list| (list.name, of(&list, ACCESSES)));
    let with_bursts = burst_lists()
        .into_iter()
        .map(|list| (list.name, of(&list, BURSTS)));
    without_bursts.chain(with_bursts).collect()
}

/// What the lists of a sort hold.
struct Sort {
    holds: &'static str,
    /// What does not unfold by itself.
    unfolded: &'static str,
}

const ACCESSES: Sort = Sort {
    holds: "a list of direct and register accesses with its answers, and what it leaves",
    unfolded: "access register_access sound fresh_card read_dword write_dword",
};

const BURSTS: Sort = Sort {
    holds: "a list of direct and register accesses and bursts with its answers, and what it leaves",
    unfolded: "access register_access sound fresh_card read_dword write_dword burst decode",
};

fn of(list: &CallList, Sort { holds, unfolded }: Sort) -> String {
    let given = &list.first;
    let first = if list.of_zeroed {
        list.zeroed()
    } else {
        let mut rng = Rng::new(SEEDS.of(list.name));
        worlds::first(given, list.shared_length, list.window_length, &mut rng)
    };
    let mut last = first.clone();
    let answered: Vec<(&Call, Given)> = list
        .calls
        .iter()
        .map(|call| (call, last.call(call)))
        .collect();
    let calls = answered.iter().map(|(call, given)| text::call(call, given));
    let fresh = given.is_fresh().then_some(given.settings());
    let definitions = format!(
        "first : World\nfirst ={}\n\n\
         calls : List CallCase\ncalls =\n{}\n\
         last : World\nlast ={}\n\n\
         agrees : CallsAgree first calls last\n\
         unfolding first calls last {unfolded}\n\
         agrees = refl\n",
        worlds::first_text(fresh, &first),
        text::entries(calls),
        worlds::text(&last)
    );
    text::file(holds, &definitions)
}
