//! The order of types and methods, over all pairs.

use std::cmp::Ordering;

use bracepuffin::{ArgType, MethodDescriptor};
use judge::rng::Rng;

use crate::{names, types};

#[test]
fn all_pairs_of_types() {
    let names = names();
    let types = types(&names);
    assert_eq!(types.len(), 204);
    for (ours, theirs) in &types {
        for (our_other, their_other) in &types {
            let expected = theirs.cmp(their_other);
            assert_eq!(ours.cmp(our_other), expected, "{ours:?} {our_other:?}");
            assert_eq!(ours.partial_cmp(our_other), Some(expected));
            assert_eq!(ours == our_other, expected == Ordering::Equal);
        }
    }
}

/// A base is ordered as the type that it is without dimensions.
#[test]
fn all_pairs_of_bases() {
    let names = names();
    let mut types = types(&names);
    types.retain(|(ours, _)| ours.dimensions == 0);
    assert_eq!(types.len(), 34);
    for (ours, theirs) in &types {
        for (our_other, their_other) in &types {
            let expected = theirs.cmp(their_other);
            assert_eq!(ours.base.cmp(&our_other.base), expected);
            assert_eq!(ours.base.partial_cmp(&our_other.base), Some(expected));
        }
    }
}

/// Sorted, a deeper array of an Unknown comes first, and a deeper array of anything else last.
#[test]
fn deeper_arrays() {
    let deeper = |ty: ArgType<'static>| ty.array().expect("few dimensions");
    let (object, any) = (ArgType::object("a"), ArgType::unknown());
    let sorted = [
        ArgType::DOUBLE,
        object,
        deeper(object),
        deeper(deeper(object)),
        deeper(deeper(any)),
        deeper(any),
        any,
    ];
    let mut types = sorted;
    types.reverse();
    types.sort();
    assert_eq!(types, sorted);
}

/// Of few types and few parameters, so that the return type often decides.
#[test]
fn all_pairs_of_methods() {
    let names = names();
    let types: Vec<_> = types(&names).into_iter().step_by(29).collect();
    let mut rng = Rng::new(1, "pairs of methods");
    let mut methods = Vec::new();
    for _ in 0..300 {
        let length = rng.below(4);
        let parameters = (0..length).map(|_| rng.pick(&types).clone());
        let (ours, theirs) = parameters.unzip();
        let (our_return, their_return) = rng.pick(&types).clone();
        let ours = MethodDescriptor {
            parameters: ours,
            return_type: our_return,
        };
        let theirs = dexdec::MethodDescriptor {
            parameters: theirs,
            return_type: their_return,
        };
        methods.push((ours, theirs));
    }
    for (ours, theirs) in &methods {
        for (our_other, their_other) in &methods {
            let expected = theirs.cmp(their_other);
            assert_eq!(ours.cmp(our_other), expected, "{ours} {our_other}");
            assert_eq!(ours.partial_cmp(our_other), Some(expected));
        }
    }
}
