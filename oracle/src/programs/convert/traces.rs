//! Damaged traces, and what one program writes at a refusal, read by the other.

use crate::access::Access;
use crate::convert::{list_of, trace_of};
use crate::list::{list, REFUSED};
use crate::trace::{refused, trace};

use super::super::replay::damaged;
use super::{Cases, LONGEST, MIDDLE, SHORTEST};

pub fn add(cases: &mut Cases) {
    let damaged = damaged::few();
    for trace in &damaged {
        cases.trace(&[trace]);
    }
    let highest = Access::new(255, 255, 255, u32::MAX, u32::MAX, u32::MAX);
    for access in [Access::default(), highest] {
        cases.trace(&[&trace(&[access])]);
    }
    for length in 1..20 {
        cases.trace(&[&trace(&[highest]), &vec![0x42; length]]);
    }
    refused_before(cases, &damaged);
}

/// "unless refused, there and back gives the same bytes": a refused output is not taken for a whole
/// one.
fn refused_before(cases: &mut Cases, damaged: &[Vec<u8>]) {
    for behind in 0..10 {
        let list = [&MIDDLE.repeat(behind), &b"x\n"[..]].concat();
        let (trace, turned) = trace_of(&list);
        assert_eq!(turned.refusal, Some(REFUSED));
        assert_eq!(list_of(&trace).1.refusal, Some(refused::SHORT));
        cases.trace(&[&trace]);
    }
    for trace in damaged.iter().step_by(7) {
        let (list, turned) = list_of(trace);
        let back = trace_of(&list).1.refusal;
        assert_eq!(back.is_some(), turned.refusal.is_some());
        cases.list(&[&list]);
    }
    // 19 bytes, and 20
    cases.trace(&[b"text 25 at 9999999\n"]);
    cases.trace(&[b"text 25 at 10000000\n"]);
    cases.trace(&[b"text 25 at 18446744073709551615\n"]);
    // each program on what the other reads
    let accesses = [Access::default(); 2];
    cases.trace(&[&list(&accesses)]);
    cases.trace(&[SHORTEST, LONGEST]);
    cases.list(&[&trace(&accesses)]);
}
