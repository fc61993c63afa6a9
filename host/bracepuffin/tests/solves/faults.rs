//! Problems that tell readings apart, each fault alone and two at once: the first in order is the refusal.

use judge::classes::Classes;
use judge::layer_cases::{faulty_layers, full_layers, telling_layers};
use judge::solve_cases::{
    class, faulty, no_records, problem, telling_problems, EXACT, LOWER, UPPER,
};

use crate::agree;

#[test]
fn telling_problems_agree() {
    for (_, problem) in telling_problems() {
        agree(&no_records(), &problem);
    }
}

#[test]
fn each_fault_alone() {
    for (place, (classes, problem, refusal)) in faulty().into_iter().enumerate() {
        assert_eq!(agree(&classes, &problem).refusal, refusal, "{place}");
    }
}

/// The table of one and the problem of another; and the columns of two problems in one.
#[test]
fn two_faults_at_once() {
    let cases = faulty();
    let good = &cases[0].1;
    for (classes, ..) in &cases {
        for (_, problem, _) in &cases {
            agree(classes, problem);
        }
    }
    let table: &Classes = &no_records();
    let faults = cases.iter().filter(|(classes, ..)| classes == table);
    for (_, left, _) in faults.clone() {
        for (_, right, _) in faults.clone() {
            let mut both = left.clone();
            if right.components != good.components {
                both.components = right.components;
            }
            if right.variables != good.variables {
                both.variables.clone_from(&right.variables);
            }
            if right.bounds != good.bounds {
                for (column, more) in both.bounds.iter_mut().zip(&right.bounds) {
                    column.extend_from_slice(more);
                }
            }
            if right.flows != good.flows {
                both.flows.clone_from(&right.flows);
            }
            if right.upper_flows != good.upper_flows {
                both.upper_flows.clone_from(&right.upper_flows);
            }
            if right.reads != good.reads {
                both.reads.clone_from(&right.reads);
            }
            if right.writes != good.writes {
                both.writes.clone_from(&right.writes);
            }
            assert_ne!(agree(table, &both).refusal, 0);
        }
    }
}

/// Classes of a table in layers that meet along flows: what they come to goes by what the layers show together, and a layer
/// that is refused is so before any row of the problem.
#[test]
fn layers() {
    let bounds = [
        (0, LOWER, class(0)),
        (1, LOWER, class(1)),
        (2, UPPER, class(2)),
        (3, EXACT, class(0)),
        (3, LOWER, class(1)),
    ];
    let flows = [(0, 4), (1, 4), (4, 2), (3, 2)];
    let mut problem = problem(5, &bounds, [&flows, &[], &[], &[]]);
    for (_, classes) in telling_layers() {
        assert_eq!(agree(&classes, &problem).refusal, 0);
    }
    for (what, classes, [refusal, ..]) in full_layers() {
        assert_eq!(agree(&classes, &problem).refusal, refusal, "{what}");
    }
    problem.bound(0, LOWER, class(9));
    for (what, classes, [refusal, ..]) in faulty_layers() {
        // The class that no table has comes after the rows of the table and before the name of Object.
        let expected = match refusal {
            0 | 9 => 7,
            refusal => refusal,
        };
        assert_eq!(agree(&classes, &problem).refusal, expected, "{what}");
    }
}
