//! Class tables to try: random ones with cycles, parents of Object, repeats, classes without a record, shapes as they
//! occur in programs, and tables in layers.

use crate::classes::{Classes, MAX_PARENTS, OBJECT};
use crate::layers::{Layers, Row, OPENS};
use crate::rng::Rng;

/// Flags that a record may have: undeclared, or declared with its facts.
pub const FLAGS: [u64; 5] = [0, 1, 3, 5, 7];

/// That many names with java/lang/Object among them, ascending; Object is first, last or in between.
pub fn class_names(rng: &mut Rng, count: u64) -> Vec<String> {
    let before = rng.below(count);
    let mut names: Vec<String> = (0..count - 1)
        .map(|number| match number < before {
            true => format!("a/C{number:04}"),
            false => format!("z/C{number:04}"),
        })
        .collect();
    names.push(OBJECT.to_string());
    names.sort();
    names
}

/// A sound table of at most `most` names: any class may be above any, itself and Object included.
pub fn any_classes(rng: &mut Rng, most: u64) -> Classes {
    let count = 1 + rng.below(most);
    let mut classes = Classes::of(&class_names(rng, count));
    // From almost none to a few parents a class.
    let records = rng.below(2 * count + 1);
    let parents = 1 + rng.below(4);
    for _ in 0..records {
        let class = rng.below(count);
        let list: Vec<u64> = (0..rng.below(parents + 1))
            .map(|_| rng.below(count))
            .collect();
        classes.push(*rng.pick(&FLAGS), class, &list);
    }
    classes
}

/// One to four layers over three to eight names. Some have no record; most record classes of the layers below again.
pub fn any_layers(rng: &mut Rng) -> Layers {
    let count = 3 + rng.below(6);
    let names = class_names(rng, count);
    let mut rows = Vec::new();
    // Few parents leave chains and classes that lead nowhere; many make cycles.
    let most_parents = 1 + rng.below(3);
    for layer in 0..1 + rng.below(4) {
        if layer > 0 {
            rows.push(Row::opening());
        }
        for _ in 0..rng.below(count + 1) {
            let parents: Vec<u64> = (0..rng.below(most_parents + 1))
                .map(|_| rng.below(count))
                .collect();
            rows.push(Row::record(*rng.pick(&FLAGS), rng.below(count), &parents));
        }
    }
    Layers { names, rows }
}

/// A sound table without cycles, as programs have them: class i has its parents among those before it in an order of
/// its own, most have a record, and some lead to Object.
pub fn layered_classes(rng: &mut Rng, count: u64, unrecorded: u64) -> Classes {
    let names = class_names(rng, count);
    let object = names.iter().position(|name| name == OBJECT);
    let object = object.expect("among the names") as u64;
    let mut order: Vec<u64> = (0..count).filter(|class| *class != object).collect();
    for place in (1..order.len()).rev() {
        order.swap(place, rng.below(place as u64 + 1) as usize);
    }
    let mut classes = Classes::of(&names);
    for (place, class) in order.iter().enumerate() {
        if unrecorded > 0 && rng.below(unrecorded) == 0 {
            continue;
        }
        let mut parents = Vec::new();
        for _ in 0..1 + rng.below(3) {
            // Near ones more often, so that there is some depth.
            let window = (place as u64).min(12);
            match window {
                0 => parents.push(object),
                _ if rng.below(4) == 0 => parents.push(object),
                _ => parents.push(order[place - 1 - rng.below(window) as usize]),
            }
        }
        classes.push(*rng.pick(&FLAGS), *class, &parents);
    }
    if rng.below(2) == 0 {
        classes.push(*rng.pick(&FLAGS), object, &[]);
    }
    classes
}

/// As many names and distinct pairs as there may be, in records of up to 254 parents.
pub fn fullest_classes(rng: &mut Rng, pairs: usize) -> Classes {
    let names = class_names(rng, 1024);
    let mut classes = Classes::of(&names);
    let mut left = pairs as u64;
    let mut class = rng.below(1024);
    while left > 0 {
        let size = [1, 3, 8, 40, MAX_PARENTS][rng.below(5) as usize].min(left);
        let first = rng.below(1024);
        let step = 1 + 2 * rng.below(512);
        // An odd step runs through all classes before it comes back.
        let list: Vec<u64> = (0..size).map(|i| (first + i * step) % 1024).collect();
        classes.push(*rng.pick(&FLAGS), class, &list);
        left -= size;
        class = (class + 389) % 1024;
    }
    classes
}

/// A table with a fault or two in its names, records or places.
pub fn damage_classes(rng: &mut Rng, classes: &mut Classes) {
    let far = *rng.pick(&[2, 6, 8, 255, 1024, 1 << 32, u64::MAX - 1, u64::MAX]);
    let records = classes.flags.len() as u64;
    let row = rng.below(records.max(1)) as usize;
    let name = rng.below(classes.names.at.len().max(1) as u64) as usize;
    match rng.below(13) {
        0 => drop(classes.flags.pop()),
        1 => drop(classes.class.pop()),
        2 => classes.at.push(0),
        3 => classes.len.push(0),
        4 if name < classes.names.len.len() => classes.names.len[name] = far,
        5 if name > 0 => classes.names.at.swap(name - 1, name),
        6 if !classes.names.store.is_empty() => classes.names.store[0] = 0xff,
        7 if row < classes.flags.len() => classes.flags[row] = far,
        8 if row < classes.class.len() => classes.class[row] = far,
        9 if row < classes.at.len() => classes.at[row] = far,
        10 if row < classes.len.len() => classes.len[row] = far,
        11 if !classes.parents.is_empty() => {
            let place = rng.below(classes.parents.len() as u64) as usize;
            classes.parents[place] = far;
        }
        // A record of class 0 without parents opens a layer then.
        12 if row < classes.flags.len() => classes.flags[row] = OPENS,
        _ => {}
    }
}
