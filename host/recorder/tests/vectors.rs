//! The stored vectors are what the recorder writes, keep the format, and hold telling cases.

use std::collections::{BTreeMap, BTreeSet};

use judge::stored::{DESCRIPTORS, LEAVES, QUERIES, SOLVES};
use recorder::out::{bytes, MAX_BYTES};
use recorder::{record, File, FILES};

/// Each file with what is stored of it.
fn stored() -> impl Iterator<Item = (&'static File, &'static str)> {
    FILES.iter().zip(judge::stored::FILES)
}

/// The number in the header line `# name number`.
fn header_number(text: &str, name: &str) -> u64 {
    let start = format!("# {name} ");
    let mut lines = text.lines().filter_map(|line| line.strip_prefix(&start));
    let number = lines.next().expect("a header line with the number");
    number.parse().expect("a number in decimal")
}

/// The lines of cases.
fn lines(text: &str) -> impl Iterator<Item = &str> {
    text.lines().filter(|line| !line.starts_with('#'))
}

/// Each case as name, arguments, answer.
fn cases(text: &str) -> impl Iterator<Item = (&str, &str, &str)> {
    lines(text).map(|line| {
        let (call, answer) = line.split_once(" = ").expect("an answer");
        let (name, arguments) = call.split_once(' ').expect("arguments");
        (name, arguments, answer)
    })
}

fn numbers(text: &str) -> Vec<u64> {
    let read = |digits| u64::from_str_radix(digits, 16).expect("a hex number");
    text.split(' ').map(read).collect()
}

/// A token as it must be written: a number, or bytes after an `x`.
fn rewritten(token: &str) -> String {
    let digit_pair = |pair: &[u8]| {
        let digits = std::str::from_utf8(pair).expect("ASCII");
        u8::from_str_radix(digits, 16).expect("two hex digits")
    };
    match token.strip_prefix('x') {
        Some(digits) => bytes(
            &digits
                .as_bytes()
                .chunks(2)
                .map(digit_pair)
                .collect::<Vec<u8>>(),
        ),
        None => format!("{:x}", numbers(token)[0]),
    }
}

#[test]
fn the_stored_vectors_are_what_the_recorder_writes() {
    for (file, text) in stored() {
        let (seed, size) = (header_number(text, "seed"), header_number(text, "size"));
        let written = record(file, seed, size);
        for (number, (stored, written)) in text.lines().zip(written.lines()).enumerate() {
            assert_eq!(stored, written, "{} line {}", file.name, number + 1);
        }
        assert!(text == written, "one is longer, or the line breaks differ");
    }
}

#[test]
fn every_line_keeps_the_format() {
    for (file, text) in stored() {
        for line in lines(text) {
            let (name, tokens) = line.split_once(' ').expect("tokens");
            let tokens: Vec<&str> = tokens.split(' ').collect();
            let rebuilt = tokens.iter().map(|token| match *token {
                "=" => "=".to_string(),
                token => rewritten(token),
            });
            assert_eq!(
                line,
                format!("{name} {}", Vec::from_iter(rebuilt).join(" "))
            );
            assert_eq!(tokens.iter().filter(|token| **token == "=").count(), 1);
            assert!(tokens.len() - 1 <= file.most_tokens);
        }
        assert!(text
            .lines()
            .all(|line| line.starts_with('#') || line.len() < MAX_BYTES));
        assert!(text.ends_with('\n') && text.is_ascii());
        // The programs have room for 1,048,576 bytes.
        assert!(text.len() <= 800_000, "{}", file.name);
    }
}

#[test]
fn functions_are_grouped_in_the_order_of_the_table() {
    for (file, text) in stored() {
        let mut names: Vec<&str> = cases(text).map(|(name, ..)| name).collect();
        let listed = Vec::from_iter(file.functions.iter().map(|function| function.name));
        match file.name {
            // What is asked about a table stands after it.
            "queries" | "solves" => assert!(names.iter().all(|name| listed.contains(name))),
            _ => {
                names.dedup();
                assert_eq!(names, listed);
            }
        }
        for name in listed {
            assert!(!name.is_empty());
            let is_letter = |byte: u8| byte == b'_' || byte.is_ascii_lowercase();
            assert!(name
                .bytes()
                .all(|byte| is_letter(byte) || byte.is_ascii_digit()));
        }
    }
}

#[test]
fn every_function_has_hundreds_of_cases_and_no_rare_answer() {
    for (_, text) in stored() {
        let mut shares = BTreeMap::<&str, BTreeMap<&str, usize>>::new();
        for (name, _, answer) in cases(text) {
            *shares.entry(name).or_default().entry(answer).or_default() += 1;
        }
        // All pairs of types stand in one line, and there are fewer tables than questions about them.
        shares.remove("pairs");
        shares.remove("table");
        // The points of a solve have a line or two each, and long lines pass its limits.
        shares.remove("limit");
        shares.retain(|name, _| !is_point(name));
        for (name, shares) in shares {
            assert!(shares.values().sum::<usize>() >= 390, "{name}");
            assert!(shares.len() >= 2, "{name}");
            let few_answers = shares.len() <= 3;
            assert!(
                !few_answers || shares.values().all(|share| *share >= 50),
                "{name}: {shares:?}"
            );
        }
    }
}

/// o52, a point that a solve decides.
fn is_point(name: &str) -> bool {
    name.strip_prefix('o')
        .is_some_and(|number| number.parse::<u64>().is_ok())
}

/// The lists from the start of some numbers on.
fn lists(mut numbers: &[u64]) -> Vec<Vec<u64>> {
    let mut lists = Vec::new();
    while let Some((length, rest)) = numbers.split_first() {
        let (list, rest) = rest.split_at(*length as usize);
        lists.push(list.to_vec());
        numbers = rest;
    }
    lists
}

/// Every refusal of a solve, every point, every kind of link, bounds that were added, and variables without a type.
#[test]
fn every_answer_to_a_solve_occurs() {
    let mut refusals = BTreeMap::<u64, usize>::new();
    let mut points = BTreeSet::new();
    let (mut links, mut added, mut missing, mut turned) = ([0; 4], 0, 0, 0);
    for (name, arguments, answer) in cases(SOLVES).filter(|(name, ..)| *name != "table") {
        let (arguments, answer) = (numbers(arguments), numbers(answer));
        let (given, found) = (lists(&arguments[6..]), lists(&answer[2..]));
        assert_eq!((given.len(), found.len()), (12, 4));
        *refusals.entry(answer[0]).or_default() += 1;
        if is_point(name) {
            points.insert(name);
        }
        if answer[0] != 0 {
            assert!(answer[1..].iter().all(|number| *number == 0));
            continue;
        }
        for (met, link) in links.iter_mut().zip(given[4..].chunks(2)) {
            *met += link[0].len();
        }
        let rows: BTreeSet<_> = (0..given[1].len())
            .map(|row| (given[1][row], given[2][row], given[3][row]))
            .collect();
        added += found[1].len() - rows.len();
        missing += found[0].iter().filter(|word| **word == u64::MAX).count();
        turned += usize::from(answer[1] > arguments[5]);
    }
    assert_eq!(points.len(), 19);
    let expected = [0, 3, 5, 6, 7, 8, 9, 10, 20, 21, 22];
    assert_eq!(Vec::from_iter(refusals.keys().copied()), expected);
    // What is wrong with a table's names is told by the vectors of queries.
    refusals.remove(&5);
    assert!(refusals.values().all(|share| *share >= 5), "{refusals:?}");
    assert!(links.iter().all(|met| *met >= 500), "{links:?}");
    assert!(added >= 5000 && missing >= 500, "{added} {missing}");
    // Components that wait again.
    assert!(turned >= 500, "{turned}");
}

/// What is told apart about tables, each many times.
#[test]
fn every_answer_about_tables_occurs() {
    let many = |function: &str, place: usize, expected: &str, least: usize| {
        let mut shares = BTreeMap::<u64, usize>::new();
        for (_, _, answer) in cases(QUERIES).filter(|(name, ..)| *name == function) {
            let answer = numbers(answer);
            // A refused answer counts under its refusal alone.
            if place == 0 || answer[0] == 0 {
                *shares.entry(answer[place]).or_default() += 1;
            }
        }
        for answer in numbers(expected) {
            let share = shares.get(&answer).copied().unwrap_or(0);
            assert!(share >= least, "{function} {place} {answer:x}: {share}");
        }
        shares.len()
    };
    // 8 is that of a fifth layer.
    let refusals = "0 3 5 6 8 9 a 16";
    for function in ["table", "pair", "ancestors"] {
        assert_eq!(many(function, 0, refusals, 4), numbers(refusals).len());
    }
    // Relation, distance, cast.
    assert_eq!(many("pair", 1, "0 1 2", 500), 3);
    many("pair", 2, "0 1 2 3 3fffffffffffffff ffffffffffffffff", 20);
    assert_eq!(many("pair", 4, "0 1", 500), 2);
}

/// How many rows of a table open a layer: the first list of columns after the names, or after the types asked about.
fn openings(arguments: &str, column: usize) -> usize {
    let numbers_alone = arguments.split(' ').filter(|token| !token.starts_with('x'));
    let numbers_alone = numbers(&Vec::from_iter(numbers_alone).join(" "));
    let skipped = usize::from(column == 3);
    let flags = &lists(&numbers_alone[skipped..])[column];
    flags.iter().filter(|flags| **flags == 0x8e).count()
}

/// Tables of two to four layers, and of five, which are refused.
#[test]
fn tables_of_several_layers_are_there() {
    let heights = |text: &str, function: &str, column: usize| {
        let mut heights = BTreeMap::<(usize, bool), usize>::new();
        for (_, arguments, answer) in cases(text).filter(|(name, ..)| *name == function) {
            let refused = !answer.starts_with("0 ");
            let height = 1 + openings(arguments, column);
            *heights.entry((height, refused)).or_default() += 1;
        }
        heights
    };
    for (text, function, column, least) in [
        (QUERIES, "table", 3, 8),
        (QUERIES, "t_check", 3, 5),
        (SOLVES, "table", 2, 4),
    ] {
        let heights = heights(text, function, column);
        for height in 2..5 {
            let share = heights.get(&(height, false)).copied().unwrap_or(0);
            assert!(share >= least, "{function} {height}: {heights:?}");
        }
        // Five or more are always refused.
        assert!(heights
            .keys()
            .all(|(height, refused)| *height < 5 || *refused));
    }
    let fifth = heights(QUERIES, "t_check", 3).get(&(5, true)).copied();
    assert!(fifth >= Some(3), "{fifth:?}");
}

/// Every pair of some hundred types over one table, and every refusal.
#[test]
fn joins_are_of_some_hundred_types() {
    let refusals = |function| {
        let of = move |(name, _, answer): &(&str, &str, &str)| {
            (*name == function).then(|| numbers(answer))
        };
        cases(QUERIES).filter_map(move |case| of(&case))
    };
    for function in ["join", "assign"] {
        let longest = refusals(function).map(|answer| answer.len()).max();
        assert!(longest >= Some(91), "{longest:?}");
        let met: BTreeSet<u64> = refusals(function).map(|answer| answer[0]).collect();
        assert!(
            [0, 3, 5, 6, 7, 9, 10, 22]
                .iter()
                .all(|refusal| met.contains(refusal)),
            "{met:?}"
        );
    }
    let flags: Vec<u64> = refusals("assign")
        .filter(|answer| answer[0] == 0)
        .flat_map(|answer| answer[1..].to_vec())
        .collect();
    let share = flags.iter().filter(|flag| **flag == 1).count();
    assert!(
        share > 1000 && flags.len() - share > 1000,
        "{share} of {}",
        flags.len()
    );
}

/// The refusals that a function of descriptors can give in a line, each more than once.
#[test]
fn every_refusal_occurs() {
    let expected = [
        ("d_type", "0 b c d e f 12"),
        ("d_strict", "0 b c d e f 12 18"),
        ("d_method", "0 b c d e f 10 11 12 13 16"),
        ("m_strict", "0 b c d e f 10 11 12 13 16 18"),
        ("w_type", "0 3 5 7 a 16"),
        ("w_method", "0 3 5 7 8 a 16"),
        ("lookup", "0 3 5 a 17"),
    ];
    for (function, refusals) in expected {
        let mut shares = BTreeMap::<u64, usize>::new();
        for (_, _, answer) in cases(DESCRIPTORS).filter(|(name, ..)| *name == function) {
            let refusal = answer.split(' ').next().expect("a refusal");
            *shares.entry(numbers(refusal)[0]).or_default() += 1;
        }
        assert_eq!(
            Vec::from_iter(shares.keys().copied()),
            numbers(refusals),
            "{function}"
        );
        assert!(
            shares.values().all(|share| *share >= 2),
            "{function}: {shares:?}"
        );
    }
}

#[test]
fn sets_and_entries_are_ascending() {
    let is_list = |list: &[u64]| list.windows(2).all(|pair| pair[0] < pair[1]);
    for (name, arguments, _) in cases(LEAVES) {
        let arguments = numbers(arguments);
        let start = match name {
            "put" => 1,
            "set" | "sets" | "run" => 0,
            _ => continue,
        };
        let length = arguments[start] as usize;
        assert!(
            is_list(&arguments[start + 1..start + 1 + length]),
            "{name} {arguments:x?}"
        );
    }
}

#[test]
fn the_order_recorded_is_an_order() {
    let mut answers = BTreeMap::new();
    for (_, arguments, answer) in cases(LEAVES).filter(|(name, ..)| *name == "order") {
        let arguments = numbers(arguments);
        answers.insert((arguments[0], arguments[1]), numbers(answer)[0]);
    }
    for ((left, right), answer) in &answers {
        assert_eq!(*answer == 1, left == right);
        if let Some(back) = answers.get(&(*right, *left)) {
            assert_eq!(answer + back, 2, "{left:x} {right:x}");
        }
    }
}

#[test]
fn some_hundred_types_stand_in_one_line() {
    let sizes = cases(LEAVES)
        .filter(|(name, ..)| *name == "pairs")
        .map(|(_, arguments, answer)| (numbers(arguments)[0], numbers(answer)[0]));
    let sizes: Vec<(u64, u64)> = sizes.collect();
    assert!(sizes.iter().all(|(types, pairs)| *pairs == types * types));
    assert!(sizes.iter().any(|(types, _)| *types >= 90));
}

/// The word itself is bit 0 of each digit, and the lines of `legal` say the same.
#[test]
fn edits_agree_with_legal() {
    let of = |function| cases(LEAVES).filter(move |(name, ..)| *name == function);
    let legal: BTreeMap<Vec<u64>, u64> = of("legal")
        .map(|(_, arguments, answer)| (numbers(arguments), numbers(answer)[0]))
        .collect();
    let mut met = 0;
    for (_, arguments, answer) in of("edits") {
        let (arguments, bits) = (numbers(arguments), numbers(answer));
        let digits = bits
            .iter()
            .flat_map(|bits| [0, 16, 32, 48].map(|at| bits >> at & 1));
        assert_eq!(digits.clone().max(), digits.min());
        for edit in 0..256 {
            let (place, digit) = (edit / 16, edit % 16);
            let edited = vec![arguments[0], arguments[1] ^ digit << (4 * place)];
            if let Some(answer) = legal.get(&edited) {
                let bit = 16 * (place % 4) + digit;
                assert_eq!(bits[place as usize / 4] >> bit & 1, *answer);
                met += 1;
            }
        }
    }
    assert!(met >= 300, "{met}");
}

#[test]
fn telling_lines_are_there() {
    let lines: BTreeSet<&str> = judge::stored::FILES
        .into_iter()
        .flat_map(str::lines)
        .collect();
    let expected = [
        // [[I before [Unknown[]; Unknown[Int] after Unknown[Boolean, Int]
        "order 200000000000005 102000000000000 = 0",
        "order 2150000000000 2215000000000 = 2",
        // Unknown[] before Unknown[Void]
        "order 2000000000000 2100000000000 = 0",
        "legal 400 2a567813249a0 = 1",
        "legal 400 2b0123456789a = 1",
        "legal 5 1000000000004 = 1",
        "legal 5 1000000000005 = 0",
        // Unknown[] is wide: no category says otherwise
        "word 2000000000000 = 1 0 0 0 0 102000000000000 ffffffffffffffff",
        "word 100000000000000 = 0 1 1 1 400 200000000000000 0",
        "word 102000000000000 = 0 1 1 0 400 202000000000000 2000000000000",
        "word fe00000000000005 = 0 1 1 1 400 ff00000000000005 fd00000000000005",
        "word ff00000000000005 = 0 1 1 1 400 ffffffffffffffff fe00000000000005",
        "hint 309 2190000000000 = 1000000000309",
        "hint 309 21a0000000000 = ffffffffffffffff",
        "hint 309 2100000000000 = 0",
        "set 0 400 = 0 0 400 0 0",
        "set 4 0 3f 40 3ff ffffffffffffffff = 0 4 0 4 0 3f 40 3ff 4 0 3f 40 3ff",
        "put 0 0 0 = 0 0 2 0",
        "run 2 0 ffffffffffffffff 400 ffffffffffffffff = 2 2",
        // [V is 13 at 1, L; 14 at 0, L ff without ';' 11 at its end
        "d_type x5b56 = d 1 0 0 0 0 0 0",
        "d_type x4c3b = e 0 0 0 0 0 0 0",
        "d_type x4cff = b 2 0 0 0 0 0 0",
        // La.b; is 24 at 0, [La.b; at 1; La.b;I is 15 at 5
        "d_strict x4c612e623b = 18 0 0 0 0 0 0 0",
        "d_strict x5b4c612e623b = 18 1 0 0 0 0 0 0",
        "d_strict x4c612e623b49 = f 5 0 0 0 0 0 0",
        // () is 11 at 2; 254 entries are 22, even for no bytes
        "d_method x2829 ff = b 2 0 0 0 0 0 0 0 0",
        "d_method x fe = 16 0 0 0 0 0 0 0 0 0",
        "d_method x ff = 10 0 0 0 0 0 0 0 0 0",
        // (La.b; is 17 at 6
        "m_strict x284c612e623b ff = 11 6 0 0 0 0 0 0 0 0",
        // a place that would overflow
        "w_type x6162 1 ffffffffffffffff 1 2 5 28 = 3 x",
        "lookup x 0 0 x = 17 0",
        "utf8 xeda080 = 0",
        // Object alone is its own ancestor
        "table 2000 x6a6176612f6c616e672f4f626a656374 1 0 1 10 0 0 0 0 0 0 = 0 5",
        "pair 0 0 = 0 0 0 0 1",
        "ancestors 0 = 0 1 0 1 1",
        // A write of 255 dimensions is 20; of two Domain bounds the one type, or none
        "o63 2 1000 1000 1000 2000 2 2 0 1 1 0 1 4 1 ff00000000000005 0 0 0 0 0 0 1 1 1 0 = 14 0 0 0 0 0",
        "o59 1 1000 1000 1000 2000 1 1 0 2 0 0 2 0 0 2 5 2150000000000 0 0 0 0 0 0 0 0 = 0 1 1 5 2 0 0 2 0 0 2 5 2150000000000",
        "o59 1 1000 1000 1000 2000 1 1 0 2 0 0 2 0 0 2 5 1 0 0 0 0 0 0 0 0 = 0 1 1 ffffffffffffffff 2 0 0 2 0 0 2 1 5",
        "limit 0 1000 1000 1000 2000 201 0 0 0 0 0 0 0 0 0 0 0 0 = 8 0 0 0 0 0",
    ];
    for line in expected {
        assert!(lines.contains(line), "{line}");
    }
}

#[test]
fn seed_and_size_decide_the_lines() {
    let count = |text: &str| cases(text).count();
    for (file, text) in stored() {
        assert!(record(file, 2, 1) == record(file, 2, 1));
        assert!(record(file, 2, 1) != record(file, 3, 1));
        assert!(count(&record(file, 1, 3)) > count(text));
    }
}
