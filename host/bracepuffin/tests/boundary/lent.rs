//! What is left in lent memory, and slices that are too short.

use bracepuffin::slices;
use judge::paper::Table;

use crate::{columns, POISON, POISON_BYTE};

const INT: u64 = 5;

#[test]
fn refused_methods_leave_every_entry() {
    let refused = [
        "", "I", "(", "(I", "(II", "(I)", "(IV)V", "(I)VV", "(IL;)V", "(ILa)V", "(Ix)V", "(I)x",
        "(I)[V", "(II)L",
    ];
    for d in refused {
        let mut params = [POISON; 300];
        assert_ne!(slices::read_method(d.as_bytes(), &mut params).refusal, 0);
        assert_ne!(
            slices::read_method_strict(d.as_bytes(), &mut params).refusal,
            0
        );
        assert_eq!(params, [POISON; 300], "{d}");
    }
    let mut params = [POISON; 300];
    assert_eq!(
        slices::read_method_strict(b"(IILa.b;)V", &mut params).refusal,
        24
    );
    let many = format!("({})V", "I".repeat(256));
    assert_eq!(
        slices::read_method(many.as_bytes(), &mut params).refusal,
        19
    );
    assert_eq!(params, [POISON; 300]);
}

#[test]
fn accepted_methods_leave_entries_past_the_last() {
    for count in [0, 1, 2, 254, 255] {
        let d = format!("({})V", "J".repeat(count));
        let mut params = [POISON; 300];
        assert_eq!(
            slices::read_method(d.as_bytes(), &mut params).count,
            count as u64
        );
        assert!(params[..count]
            .iter()
            .zip(1..)
            .all(|(entry, place)| *entry == place));
        assert!(params[count..].iter().all(|entry| *entry == POISON));
    }
}

#[test]
fn fewer_than_255_entries_come_first() {
    for entries in [0, 1, 3, 254] {
        for d in ["", "I", "()V", "(I)V", "(V)", "(La.b;)V"] {
            let mut params = vec![POISON; entries];
            let ordinary = slices::read_method(d.as_bytes(), &mut params);
            assert_eq!(
                (ordinary.refusal, ordinary.offset, ordinary.byte),
                (22, 0, 0)
            );
            assert_eq!(
                slices::read_method_strict(d.as_bytes(), &mut params),
                ordinary
            );
            assert!(params.iter().all(|entry| *entry == POISON));
        }
    }
    assert_eq!(slices::read_method(b"", &mut [0; 255]).refusal, 16);
    assert_eq!(slices::read_method(b"()V", &mut [0; 256]).refusal, 0);
}

/// Writes a type or, with parameters, a method into `room` bytes before others.
fn write(table: &Table, params: Option<&[u64]>, word: u64, room: usize) -> (u64, u64, Vec<u8>) {
    let mut lent = vec![POISON_BYTE; room + 8];
    let out = &mut lent[..room];
    let written = match params {
        None => slices::write_type(columns(table), word, out),
        Some(params) => slices::write_method(columns(table), params, word, out),
    };
    (written.refusal, written.length, lent)
}

#[test]
fn a_writer_writes_its_bytes_and_no_other() {
    let table = Table::of(&["a", "b/c"]);
    let class = 0x0201_0000_0000_0001;
    for (params, word, text) in [
        (None, INT, "I"),
        (None, class, "[[Lb/c;"),
        (Some(&[][..]), 0, "()V"),
        (Some(&[class, INT][..]), class, "([[Lb/c;I)[[Lb/c;"),
    ] {
        for more in [0, 1, 30] {
            let (refusal, length, lent) = write(&table, params, word, text.len() + more);
            assert_eq!((refusal, length), (0, text.len() as u64));
            assert_eq!(&lent[..text.len()], text.as_bytes());
            assert!(lent[text.len()..].iter().all(|byte| *byte == POISON_BYTE));
        }
        for room in 0..text.len() {
            let (refusal, length, lent) = write(&table, params, word, room);
            assert_eq!((refusal, length), (22, 0), "{text} into {room}");
            assert!(lent.iter().all(|byte| *byte == POISON_BYTE));
        }
    }
}

#[test]
fn a_refused_writer_writes_nothing() {
    let bad_table = Table::of(&["b", "a"]);
    let table = Table::of(&["a", "b"]);
    let bad_word = 0x0001_0000_0000_0002;
    let many = [INT; 256];
    for (table, params, word, expected) in [
        (&bad_table, None, INT, 5),
        (&bad_table, Some(&[INT][..]), INT, 5),
        (&table, None, bad_word, 7),
        (&table, Some(&[INT, bad_word][..]), INT, 7),
        (&table, Some(&[INT, INT][..]), bad_word, 7),
        (&table, Some(&many[..]), INT, 8),
    ] {
        let (refusal, length, lent) = write(table, params, word, 600);
        assert_eq!((refusal, length), (expected, 0));
        assert!(lent.iter().all(|byte| *byte == POISON_BYTE));
    }
}
