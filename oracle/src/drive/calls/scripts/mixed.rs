//! Random calls.

use super::super::builder::CallBuilder;
use super::super::choice::Faulty;

/// The calls of a list.
const LENGTH: usize = 56;

pub fn seldom_refused(b: &mut CallBuilder) {
    b.random(Faulty::Seldom, LENGTH);
}

pub fn often_refused(b: &mut CallBuilder) {
    b.random(Faulty::Often, LENGTH);
}
