//! Both sides of each limit of reading, by the words of the paper.

use bracepuffin::slices;

use crate::{method_refusal, times, type_refusal};

fn deep(dimensions: usize, rest: &str) -> Vec<u8> {
    (times(dimensions, "[") + rest).into_bytes()
}

#[test]
fn dimensions_of_a_type() {
    assert_eq!(type_refusal(&deep(255, "I")), [0, 0, 0]);
    assert_eq!(slices::read_type(&deep(255, "I")).dims, 255);
    assert_eq!(slices::read_type(&deep(255, "La;")).name_at, 256);
    assert_eq!(type_refusal(&deep(256, "I")), [18, 255, 0]);
    assert_eq!(type_refusal(&deep(1000, "I")), [18, 255, 0]);
    assert_eq!(type_refusal(&deep(100_000, "")), [18, 255, 0]);
}

#[test]
fn the_256th_dimension_comes_before_later_faults() {
    assert_eq!(type_refusal(&deep(255, "")), [11, 255, 0]);
    assert_eq!(type_refusal(&deep(256, "")), [18, 255, 0]);
    assert_eq!(type_refusal(&deep(255, "V")), [13, 255, 0]);
    assert_eq!(type_refusal(&deep(256, "V")), [18, 255, 0]);
    assert_eq!(type_refusal(&deep(255, "x")), [12, 255, 0x78]);
    assert_eq!(type_refusal(&deep(256, "x")), [18, 255, 0]);
    assert_eq!(type_refusal(&deep(255, "L;")), [14, 255, 0]);
    assert_eq!(type_refusal(&deep(256, "L;")), [18, 255, 0]);
    assert_eq!(type_refusal(&deep(255, "II")), [15, 256, 0]);
}

#[test]
fn dimensions_are_counted_for_each_type() {
    let d = format!("({0}I{0}J{0}La;){0}D", times(255, "["));
    let mut params = [0; 255];
    let read = slices::read_method(d.as_bytes(), &mut params);
    assert_eq!((read.refusal, read.count, read.dims), (0, 3, 255));
    assert_eq!(params[..3], [1, 257, 513]);
    let late = format!("({0}I[{0}J)V", times(255, "["));
    assert_eq!(method_refusal(late.as_bytes()), [18, 257 + 255, 0]);
    let result = format!("(I)[{0}J", times(255, "["));
    assert_eq!(method_refusal(result.as_bytes()), [18, 3 + 255, 0]);
}

#[test]
fn parameters_of_a_method() {
    let method = |count, after: &str| format!("({}{after}", times(count, "I")).into_bytes();
    let mut params = [7; 255];
    let read = slices::read_method(&method(255, ")V"), &mut params);
    assert_eq!((read.refusal, read.count, read.return_at), (0, 255, 257));
    assert!(params.iter().zip(1..).all(|(param, place)| *param == place));
    assert_eq!(method_refusal(&method(256, ")V")), [19, 256, 0]);
    assert_eq!(method_refusal(&method(300, ")V")), [19, 256, 0]);
    assert_eq!(method_refusal(&method(255, "")), [17, 256, 0]);
    assert_eq!(method_refusal(&method(256, "")), [19, 256, 0]);
}

#[test]
fn the_256th_parameter_is_any_byte_but_the_closing_one() {
    for byte in 0..=255 {
        let d = [b"(", times(255, "J").as_bytes(), &[byte], b")V"].concat();
        let expected = match byte {
            b')' => [12, 257, u64::from(b')')],
            _ => [19, 256, 0],
        };
        assert_eq!(method_refusal(&d), expected);
    }
    let deep = format!("({}{})V", times(255, "I"), times(256, "["));
    assert_eq!(method_refusal(deep.as_bytes()), [19, 256, 0]);
}

#[test]
fn parameters_of_several_bytes() {
    let d = format!("({})[La;", times(255, "[[Lb/c;"));
    let mut params = [0; 255];
    let read = slices::read_method(d.as_bytes(), &mut params);
    assert_eq!((read.refusal, read.count), (0, 255));
    assert!(params
        .iter()
        .enumerate()
        .all(|(i, at)| *at == 1 + 7 * i as u64));
    assert_eq!(
        (read.return_at, read.name_at, read.name_len),
        (1787, 1789, 1)
    );
    let more = format!("({})V", times(256, "[[Lb/c;"));
    assert_eq!(method_refusal(more.as_bytes()), [19, 1 + 7 * 255, 0]);
}

#[test]
fn a_name_that_is_read_may_have_any_length() {
    for length in [1, 254, 255, 256, 300, 70_000] {
        let d = format!("[L{};", times(length, "n"));
        let read = slices::read_type(d.as_bytes());
        assert_eq!(
            (read.refusal, read.name_at, read.name_len),
            (0, 2, length as u64)
        );
        assert_eq!(slices::read_type_strict(d.as_bytes()), read);
    }
}
