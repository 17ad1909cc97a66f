//! Every number as a bay index and as a bay label.

use crate::bays::{index, label};

use super::text;

fn line(number: u8) -> String {
    let label = label(number).unwrap_or(0);
    let way_back = match index(number) {
        Some(index) => format!("(at {index})"),
        None => "no_bay".to_string(),
    };
    format!("bay_case {number} {label} {way_back}")
}

pub fn text() -> String {
    let lines = (0..=255).map(line);
    let agreement = text::agreement("BayCase", "BaysAgree", "cases", lines);
    let definitions = format!(
        "-- number; the label of the bay that has it as index, 0 for none; the index of the bay \
         that has it as label\n{agreement}"
    );
    text::file("bay labels and bay indexes", &definitions)
}
