//! Inputs of the program to try: random scripts of hex lines with damaged ones between, scripts at every limit, and the long
//! one that is stored as the program's run.

use std::collections::BTreeSet;

use crate::cases::any_names;
use crate::class_cases::{any_classes, class_names, fullest_classes, layered_classes};
use crate::classes::{Classes, MAX_PAIRS, OBJECT};
use crate::layer_cases::{full_layers, open_layers, telling_layers};
use crate::layers::OPENS;
use crate::lines::{
    Lines, BOUND, CAST, COUNT, FLOW, MAX_FRAME, NAME, OPEN, READ, RECORD, RELATION, SOLVE,
    SUPERTYPE, UPPER_FLOW, VARIABLE, WRITE,
};
use crate::paper::MAX_NAMES;
use crate::rng::Rng;
use crate::solve_cases::{
    any_problem, any_type, array, class, damage_problem, full_problems, no_records,
    overfull_problems, telling_problems, unknown, BOOLEAN, DOMAIN, EXACT, INT, LOWER,
};
use crate::solves::{Columns, MAX_BOUNDS};

// ---- frames

/// The low two bytes, high first.
fn two(number: u64) -> [u8; 2] {
    (number as u16).to_be_bytes()
}

pub fn name(name: &[u8]) -> Vec<u8> {
    [&[NAME], name].concat()
}

pub fn record(flags: u64, class: u64, parents: &[u64]) -> Vec<u8> {
    let mut frame = vec![RECORD, flags as u8];
    frame.extend(two(class));
    frame.extend(parents.iter().flat_map(|parent| two(*parent)));
    frame
}

/// A component count or a variable.
pub fn one(kind: u8, number: u64) -> Vec<u8> {
    [&[kind][..], &two(number)].concat()
}

/// A link, or a question about two classes.
pub fn pair(kind: u8, left: u64, right: u64) -> Vec<u8> {
    [&[kind][..], &two(left), &two(right)].concat()
}

pub fn bound(component: u64, kind: u64, word: u64) -> Vec<u8> {
    let mut frame = one(BOUND, component);
    frame.push(kind as u8);
    frame.extend(word.to_be_bytes());
    frame
}

/// The digits of a frame.
pub fn hex(frame: &[u8]) -> Vec<u8> {
    let digits: String = frame.iter().map(|byte| format!("{byte:02x}")).collect();
    digits.into_bytes()
}

/// The names, the records and the layers of a table whose numbers fit into two bytes.
pub fn table_frames(classes: &Classes) -> Vec<Vec<u8>> {
    let names = classes.names.names().expect("sound names");
    let mut frames: Vec<Vec<u8>> = names.iter().map(|text| name(text.as_bytes())).collect();
    frames.extend(classes.rows().iter().map(|row| match row.opens() {
        true => vec![OPEN],
        false => record(row.flags, row.class, &row.parents),
    }));
    frames
}

/// The rows of a problem, in order of kind.
pub fn problem_frames(problem: &Columns) -> Vec<Vec<u8>> {
    let mut frames = vec![one(COUNT, problem.components)];
    frames.extend(problem.variables.iter().map(|of| one(VARIABLE, *of)));
    let [components, kinds, words] = &problem.bounds;
    let bounds = components.iter().zip(kinds).zip(words);
    frames.extend(bounds.map(|((component, kind), word)| bound(*component, *kind, *word)));
    let links = [
        (FLOW, &problem.flows),
        (UPPER_FLOW, &problem.upper_flows),
        (READ, &problem.reads),
        (WRITE, &problem.writes),
    ];
    for (kind, [left, right]) in links {
        let rows = left.iter().zip(right);
        frames.extend(rows.map(|(left, right)| pair(kind, *left, *right)));
    }
    frames
}

/// Lines of these frames, each with its LF.
pub fn script<'a>(frames: impl IntoIterator<Item = &'a Vec<u8>>) -> Vec<u8> {
    let mut script = Vec::new();
    for frame in frames {
        script.extend(hex(frame));
        script.push(b'\n');
    }
    script
}

// ---- random scripts

/// A question about two classes of so many, rarely about one that is none.
pub fn question(rng: &mut Rng, names: u64) -> Vec<u8> {
    let past = u64::from(rng.below(40) == 0);
    let mut number = || rng.below(names.max(1) + past);
    let (left, right) = (number(), number());
    pair(*rng.pick(&[RELATION, SUPERTYPE, CAST]), left, right)
}

/// A line near a frame: most are refused, each for another reason.
pub fn damaged(rng: &mut Rng, frame: &[u8]) -> Vec<u8> {
    let mut frame = frame.to_vec();
    let last = frame.len() - 1;
    match rng.below(14) {
        0 => return Vec::new(),
        1 => return no_hex(rng, hex(&frame)),
        2 => return hex(&frame)[1..].to_vec(),
        3 => return hex(&frame).to_ascii_uppercase(),
        4 => return too_long(rng, hex(&frame)),
        5 => return (0..rng.below(40)).map(|_| rng.draw() as u8).collect(),
        6 => frame[0] = *rng.pick(&[0x00, 0x0e, 0x0f, 0x10, 0xff]),
        7 => frame[0] = 1 + rng.below(13) as u8,
        8 => drop(frame.pop()),
        9 => frame.push(0),
        10 if last >= 2 => {
            frame[last - 1..].copy_from_slice(&two(*rng.pick(&[5, 511, 512, 65535])))
        }
        11 if last >= 2 => frame[1..3].copy_from_slice(&two(*rng.pick(&[6, 511, 1024, 65535]))),
        // Not the dimensions of a bound: lattice.rs needs minutes to take deep arrays apart in a cycle.
        12 => {
            let place = rng.below(last as u64 + 1) as usize;
            if (frame[0], place) != (BOUND, 4) {
                frame[place] = rng.draw() as u8;
            }
        }
        _ => frame = bound(rng.below(3), rng.below(7), wrong_word(rng)),
    }
    hex(&frame)
}

/// One digit made something else.
fn no_hex(rng: &mut Rng, mut digits: Vec<u8>) -> Vec<u8> {
    let place = rng.below(digits.len() as u64) as usize;
    digits[place] = *rng.pick(b"gzAF/:@`GX -+.\r\t\0\x7f\x80\xc3\xff");
    if rng.below(4) == 0 {
        // A line break of two bytes.
        digits.push(b'\r');
    }
    digits
}

/// More digits than a line may have, by one, two, or many.
fn too_long(rng: &mut Rng, mut digits: Vec<u8>) -> Vec<u8> {
    let most = 2 * MAX_FRAME;
    let length = *rng.pick(&[most + 1, most + 2, most + 64, 4096, 4097, 5000]);
    digits.resize(length, b'0');
    digits
}

/// Mostly no type.
fn wrong_word(rng: &mut Rng) -> u64 {
    let any = rng.draw();
    *rng.pick(&[
        11,
        class(1024),
        class(u64::from(u16::MAX)),
        class(1 << 40),
        3 << 48,
        unknown(&[INT, INT]),
        unknown(&[INT]) | 1,
        0xc << 44 | 2 << 48,
        array(255, 11),
        any,
        u64::MAX,
    ])
}

/// A whole input: a table, a problem and questions, most of it in order, with damaged, repeated and early lines between.
pub fn any_script(rng: &mut Rng) -> Vec<u8> {
    let classes = match rng.below(4) {
        0 => layered_classes(rng, 14, 4),
        1 => Classes::of(&any_names(rng, 6)),
        _ => any_classes(rng, 8),
    };
    // One to five layers.
    let more = *rng.pick(&[0, 0, 0, 1, 2, 3, 4]);
    let classes = open_layers(rng, &classes, more);
    let names = classes.names.at.len() as u64;
    let mut problem = any_problem(rng, names.max(1), 5);
    if rng.below(8) == 0 {
        damage_problem(rng, &mut problem);
    }
    let mut frames = table_frames(&classes);
    frames.extend(problem_frames(&problem));
    out_of_order(rng, &mut frames);
    let harm = rng.below(12);
    let mut lines = Vec::new();
    for frame in &frames {
        if rng.below(200) == 0 {
            lines.push(hex(&[SOLVE]));
            lines.push(hex(&question(rng, names)));
        }
        if rng.below(100) < 2 * harm {
            lines.push(damaged(rng, frame));
        }
        lines.push(hex(frame));
        if rng.below(20) == 0 {
            lines.push(hex(frame));
        }
    }
    for _ in 0..rng.below(30) {
        let frame = match rng.below(9) {
            0 => vec![SOLVE],
            1 => vec![OPEN],
            2 if !frames.is_empty() => rng.pick(&frames).clone(),
            _ => question(rng, names),
        };
        match rng.below(100) < harm {
            true => lines.push(damaged(rng, &frame)),
            false => lines.push(hex(&frame)),
        }
    }
    let mut input = lines.join(&b'\n');
    if rng.below(4) > 0 {
        input.push(b'\n');
    }
    input
}

/// Now and then two frames change places, or one is missing.
fn out_of_order(rng: &mut Rng, frames: &mut Vec<Vec<u8>>) {
    let place = |rng: &mut Rng| rng.below(frames.len().max(1) as u64) as usize;
    let (left, right) = (place(rng), place(rng));
    if frames.is_empty() {
        return;
    }
    match rng.below(8) {
        0 => frames.swap(left, right),
        1 if left > 0 => frames.swap(left - 1, left),
        2 => drop(frames.remove(left)),
        _ => {}
    }
}

/// Bytes that are no text, with line breaks among them.
pub fn any_bytes(rng: &mut Rng) -> Vec<u8> {
    let telling = b"\n\n\n\r 0123456789abcdefAF\0\xff";
    let few = rng.below(2) == 0;
    (0..rng.below(400))
        .map(|_| match few {
            true => *rng.pick(telling),
            false => rng.draw() as u8,
        })
        .collect()
}

// ---- inputs about the form of lines

/// Short inputs, each about how an input is cut into lines and a line into bytes.
pub fn forms() -> Vec<Vec<u8>> {
    let object = hex(&name(OBJECT.as_bytes()));
    let longest = hex(&record(1, 0, &[0; 254]));
    assert_eq!(longest.len(), 2 * MAX_FRAME);
    let of = |lines: &[&[u8]]| lines.join(&b'\n');
    let mut forms: Vec<Vec<u8>> = [
        &b""[..],
        b"\n",
        b"\n\n",
        b"0",
        b"01",
        b"0161",
        b"0161\n",
        b"0161\r\n",
        b" 0161\n0161 \n0161\n0161",
        b"0a\n0161\n0a",
        b"0e\n00\nff\n0d\n0a00",
        b"0f\n0e\n0161\n0e00\n0e\n0e\n0e\n0e",
        b"016A\n016a\n016a",
        b"\xff\xfe\0\n\x80\n0161",
    ]
    .map(<[u8]>::to_vec)
    .to_vec();
    forms.push(of(&[&object, &longest, b"0b00000000"]));
    forms.push(of(&[&object, &longest, b"", b"0b00000000", b"", b""]));
    for more in [1, 2, 3, 1000, 64 * 1024, 300_000] {
        let mut long = longest.clone();
        long.resize(longest.len() + more, b'0');
        forms.push(of(&[&long, &object, &long, b"0d00000000", &long]));
        long[7] = b'x';
        forms.push(of(&[&object, &long]));
    }
    // As long as may be, and no hex.
    for place in [0, 1, 511, 512, 1022, 1023] {
        let mut wrong = longest.clone();
        wrong[place] = b'G';
        forms.push(of(&[&object, &wrong, b"0c00000000"]));
    }
    // Names of 0, 1, 255 and 256 bytes.
    let names = [0, 1, 255, 256].map(|length| hex(&name(&vec![b'a'; length])));
    forms.push(of(&names.each_ref().map(Vec::as_slice)));
    forms
}

// ---- scripts at the limits

/// Scripts that fill each room, go one past it, repeat what is there, and then ask.
pub fn full_scripts() -> Vec<(&'static str, Vec<u8>)> {
    let mut scripts = vec![
        ("names", many_names()),
        ("name bytes", long_names()),
        ("pairs", many_pairs()),
        (
            "count",
            script(&[one(COUNT, 513), one(COUNT, 512), one(COUNT, 1)]),
        ),
    ];
    scripts.extend(layer_scripts());
    let table = table_frames(&no_records());
    let ask = [vec![SOLVE], pair(RELATION, 0, 1), vec![SOLVE]];
    for (what, problem, _) in full_problems() {
        let rows = problem_frames(&problem);
        scripts.push((what, script(table.iter().chain(&rows).chain(&ask))));
    }
    for (problem, _) in overfull_problems() {
        let rows = problem_frames(&problem);
        scripts.push(("a run", script(table.iter().chain(&rows).chain(&ask))));
    }
    for (what, problem) in telling_problems() {
        let rows = problem_frames(&problem);
        scripts.push((what, script(table.iter().chain(&rows).chain(&ask))));
    }
    scripts
}

fn many_names() -> Vec<u8> {
    let mut rng = Rng::new(1, "names");
    let mut frames: Vec<Vec<u8>> = class_names(&mut rng, 1024)
        .iter()
        .map(|text| name(text.as_bytes()))
        .collect();
    frames.extend([name(b"zz"), name(b"zz"), name(b"a"), name(b"zz\xff")]);
    frames.push(record(5, 1023, &[0, 1023]));
    frames.push(record(5, 1024, &[]));
    frames.push(record(5, 0, &[1024]));
    for _ in 0..20 {
        frames.push(question(&mut rng, 1024));
    }
    script(&frames)
}

/// 96 names of 255 bytes, Object, and the 80 bytes that are left, each offered with one too many first.
fn long_names() -> Vec<u8> {
    let long = |number: u64| format!("a/{number:03}{:b<250}", "").into_bytes();
    let mut frames: Vec<Vec<u8>> = (0..96).map(|number| name(&long(number))).collect();
    assert!(frames.iter().all(|frame| frame.len() == 256));
    frames.push(name(OBJECT.as_bytes()));
    frames.push(name(&[b'z'; 81]));
    frames.push(name(&[b'x'; 40]));
    frames.push(name(&[b'y'; 41]));
    frames.push(name(&[b'y'; 40]));
    frames.push(name(b"z"));
    frames.push(name(b"a"));
    for class in [0, 95, 96, 97, 98, 99] {
        frames.push(pair(RELATION, class, 96));
    }
    script(&frames)
}

/// As many pairs as may be; then records that add one, that add none, and that would add one of two.
fn many_pairs() -> Vec<u8> {
    let mut rng = Rng::new(1, "pairs");
    let classes = fullest_classes(&mut rng, MAX_PAIRS - 1);
    let mut frames = table_frames(&classes);
    let first: Vec<u64> = classes.parents[..classes.len[0] as usize].to_vec();
    let has = |class: u64, parent: u64| {
        (0..classes.flags.len()).any(|row| {
            let (at, len) = (classes.at[row] as usize, classes.len[row] as usize);
            classes.class[row] == class && classes.parents[at..at + len].contains(&parent)
        })
    };
    let owner = classes.class[0];
    let new: Vec<u64> = (0..1024).filter(|parent| !has(owner, *parent)).collect();
    let also = |more: &[u64]| [&first[..], more].concat();
    let short = |mut list: Vec<u64>| {
        list.drain(..list.len().saturating_sub(254));
        list
    };
    frames.push(record(1, owner, &short(also(&new[..2]))));
    frames.push(record(3, owner, &[new[0], new[0]]));
    frames.push(record(5, owner, &[new[1]]));
    frames.push(record(7, owner, &short(also(&new[..1]))));
    frames.push(record(7, owner, &short(also(&new[1..2]))));
    frames.push(record(0, (owner + 1) % 1024, &[]));
    for other in new.iter().take(12) {
        frames.push(pair(RELATION, owner, *other));
        frames.push(pair(CAST, *other, owner));
        frames.push(question(&mut rng, 1024));
    }
    script(&frames)
}

/// Layers that tell their rules apart, with every question; full ones, and one too many; and where a layer may be opened.
fn layer_scripts() -> Vec<(&'static str, Vec<u8>)> {
    let mut scripts = Vec::new();
    for (what, classes) in telling_layers() {
        let mut frames = table_frames(&classes);
        let names = classes.names.at.len() as u64;
        for kind in [RELATION, SUPERTYPE, CAST] {
            let pairs = (0..names * names).map(|row| pair(kind, row / names, row % names));
            frames.extend(pairs);
        }
        scripts.push((what, script(&frames)));
    }
    let mut rng = Rng::new(1, "layers of lines");
    for (what, classes, _) in full_layers() {
        let mut frames = table_frames(&classes);
        // After what is refused: what the topmost layer has is there, and another class is new to it.
        let last = frames.last().expect("a record or a layer").clone();
        frames.extend([last, record(1, 901, &[]), record(1, 902, &[903])]);
        frames.extend((0..20).map(|_| question(&mut rng, 400)));
        scripts.push((what, script(&frames)));
    }
    scripts.push(("places of a layer", places_of_layers()));
    scripts
}

/// A layer before the names, between records, after a count, a question and a solve; with a body; as flags of a record.
fn places_of_layers() -> Vec<u8> {
    let object = name(OBJECT.as_bytes());
    let (opening, with_body) = (vec![OPEN], vec![OPEN, 0]);
    let as_record = record(OPENS, 0, &[]);
    script(&[
        object.clone(),
        with_body.clone(),
        as_record.clone(),
        opening.clone(),
        name(b"z"),
        record(5, 0, &[0]),
        as_record,
        opening.clone(),
        pair(RELATION, 0, 1),
        one(COUNT, 1),
        with_body.clone(),
        opening.clone(),
        pair(CAST, 0, 0),
        with_body,
        opening.clone(),
        vec![SOLVE],
        opening,
        object,
    ])
}

// ---- the stored run

/// A long script over 1,024 names, with every refusal that a line can have in it.
///
/// A solve that is accepted ends the rows, so those before it are refused, and what is refused in a run can only go away by
/// rows of a later kind. The types of lattice.rs make that possible: a value written to an array changes what its
/// component produces. `deep` is refused 20 until a write makes its arrays meet, and `spread` 21 until a write makes what
/// it sends one that is there already; so the solve is refused 20, then 21, and then has exactly 4,096 bounds.
pub fn stored_script(seed: u64) -> Vec<u8> {
    let mut rng = Rng::new(seed, "typeline");
    let classes = layered_classes(&mut rng, 1024, 90);
    let problem = stored_problem(&mut rng, &classes);
    let mut writer = Writer::default();
    writer.frame(&[SOLVE], &mut rng);
    for (place, frame) in table_frames(&classes).iter().enumerate() {
        match place {
            1 => writer.frame(&pair(RELATION, 0, 0), &mut rng),
            MAX_NAMES => writer.frame(&name(b"zz"), &mut rng),
            _ => {}
        }
        writer.frame(frame, &mut rng);
    }
    writer.frame(&one(COUNT, 513), &mut rng);
    let rows = problem_frames(&problem);
    let (last, rows) = rows.split_last().expect("the write that ends 21");
    let (cure, rows) = rows.split_last().expect("the write that ends 20");
    for frame in rows {
        writer.frame(frame, &mut rng);
    }
    for frame in [&vec![SOLVE], cure, &vec![SOLVE], last, &vec![SOLVE]] {
        writer.frame(frame, &mut rng);
    }
    for number in 0..6000 {
        let frame = match rng.below(2) {
            0 => question(&mut rng, 1024),
            _ => near_question(&mut rng, &classes),
        };
        writer.frame(&frame, &mut rng);
        if number == 2000 || number == 5000 {
            writer.frame(&[SOLVE], &mut rng);
        }
    }
    // A layer comes too late, and with a body it is none. Scripts of layers stand in `full_scripts`.
    writer.push(&hex(&[OPEN]));
    writer.push(&hex(&[OPEN, 0]));
    writer.input
}

/// A question about two classes that a third, or one of them, has below it.
fn near_question(rng: &mut Rng, classes: &Classes) -> Vec<u8> {
    let start = rng.below(1024);
    let mut up = |most: u64| {
        let mut class = start;
        for _ in 0..rng.below(most) {
            let row = classes.class.iter().position(|of| *of == class);
            let Some(row) = row.filter(|row| classes.len[*row] > 0) else {
                break;
            };
            class = classes.parents[(classes.at[row] + rng.below(classes.len[row])) as usize];
        }
        class
    };
    let (left, right) = (up(2), up(6));
    pair(*rng.pick(&[RELATION, SUPERTYPE, CAST]), left, right)
}

/// Small problems side by side, the two described above, and given bounds that fill what is left.
fn stored_problem(rng: &mut Rng, classes: &Classes) -> Columns {
    let judge = classes.judge();
    let names = judge.names.len() as u64;
    let probe = class(names - 1);
    let mut all = Columns::of(0);
    // 20: what is read into 2 is 1, of 255 dimensions.
    add(
        &mut all,
        3,
        &[(0, EXACT, BOOLEAN), (1, LOWER, array(255, INT))],
    );
    all.reads = [vec![2], vec![1]];
    // 21: 4 flows to three that have what it sends later, and not what it sends at first.
    let later = judge.join_all(&[probe, array(1, INT)]).expect("a type");
    let mut spread = vec![(3, EXACT, INT), (4, LOWER, probe)];
    spread.extend([5, 6, 7].map(|component| (component, LOWER, later)));
    add(&mut all, 5, &spread);
    all.flows = [vec![4, 4, 4], vec![5, 6, 7]];
    all.upper_flows = [vec![0], vec![0]];
    while all.components < 380 {
        let small = any_problem(rng, names, 9);
        let solved = classes.solve(&small, small.least());
        if solved.refusal == 0 && solved.bounds.len() < 60 {
            beside(&mut all, &small);
        }
    }
    // Each variable of the rest has what its component was given.
    let used = all.components;
    all.components = 512;
    all.variables.extend(used..512);
    // The last rows: the writes that end 20 and 21.
    for (array, value) in [(1, 0), (4, 3)] {
        all.writes[0].push(array);
        all.writes[1].push(value);
    }
    let taken = judge.run(&all).expect("no limit passed").bounds.len();
    let mut filled = BTreeSet::new();
    while taken + filled.len() < MAX_BOUNDS {
        filled.insert((used + rng.below(512 - used), any_type(rng, names)));
    }
    for (component, word) in filled {
        all.bound(component, DOMAIN, word);
    }
    let solved = judge.run(&all).expect("room for the last one");
    assert_eq!(solved.bounds.len(), MAX_BOUNDS);
    all
}

/// So many components more, each with a variable, and bounds.
fn add(all: &mut Columns, components: u64, bounds: &[(u64, u64, u64)]) {
    all.variables
        .extend(all.components..all.components + components);
    all.components += components;
    for (component, kind, word) in bounds {
        all.bound(*component, *kind, *word);
    }
}

/// A problem of its own after those that are there.
fn beside(all: &mut Columns, small: &Columns) {
    let first = all.components;
    let moved = |column: &[u64]| -> Vec<u64> { column.iter().map(|of| of + first).collect() };
    all.components += small.components;
    all.variables.extend(moved(&small.variables));
    all.bounds[0].extend(moved(&small.bounds[0]));
    all.bounds[1].extend(&small.bounds[1]);
    all.bounds[2].extend(&small.bounds[2]);
    let links = [
        (&mut all.flows, &small.flows),
        (&mut all.upper_flows, &small.upper_flows),
        (&mut all.reads, &small.reads),
        (&mut all.writes, &small.writes),
    ];
    for (all, small) in links {
        all[0].extend(moved(&small[0]));
        all[1].extend(moved(&small[1]));
    }
}

/// Writes frames, and between them lines of text that are refused and entries that are there already.
#[derive(Default)]
struct Writer {
    input: Vec<u8>,
    state: Lines,
}

impl Writer {
    fn frame(&mut self, frame: &[u8], rng: &mut Rng) {
        if rng.below(10) == 0 {
            let line = damaged(rng, frame);
            let is_short = line.len() <= 2 * MAX_FRAME + 2;
            let is_text = line.iter().all(|byte| (b' '..=b'~').contains(byte));
            if is_short && is_text && self.state.refusal(&line) != 0 {
                self.push(&line);
            }
        }
        let digits = hex(frame);
        self.push(&digits);
        let present = [RECORD, BOUND, FLOW, UPPER_FLOW, READ, WRITE];
        if present.contains(&frame[0]) && rng.below(40) == 0 {
            self.push(&digits);
        }
    }

    fn push(&mut self, line: &[u8]) {
        // Refused or not: the script says what comes, the judge what is printed.
        let _ = self.state.take(line);
        self.input.extend(line);
        self.input.push(b'\n');
    }
}
