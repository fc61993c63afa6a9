//! Strict reading: which names it refuses, where, and only after ordinary acceptance.

use bracepuffin::slices;

fn strict_type(d: &str) -> [u64; 3] {
    let t = slices::read_type_strict(d.as_bytes());
    [t.refusal, t.offset, t.byte]
}

fn strict_method(d: &str) -> [u64; 3] {
    let m = slices::read_method_strict(d.as_bytes(), &mut [0; 255]);
    [m.refusal, m.offset, m.byte]
}

#[test]
fn names_that_are_refused() {
    for name in [
        "/a", "a/", "a//b", "/", "//", "a.b", ".", "a[", "[", "a/b/", "a/.", "/\u{e9}", "a/b//c",
    ] {
        assert_eq!(strict_type(&format!("L{name};")), [24, 0, 0], "{name}");
        assert_eq!(strict_type(&format!("[[L{name};")), [24, 2, 0], "{name}");
        assert_eq!(slices::read_type(format!("L{name};").as_bytes()).refusal, 0);
    }
}

#[test]
fn names_that_are_accepted() {
    for name in [
        "a",
        "a/b",
        "a/b/c",
        "\u{e9}/\u{1f600}",
        "a$b",
        "]",
        ")",
        "(",
        "\0",
        "-",
        "L",
        "a\\b",
        "<init>",
    ] {
        let d = format!("L{name};");
        let ordinary = slices::read_type(d.as_bytes());
        assert_eq!(ordinary.refusal, 0);
        assert_eq!(slices::read_type_strict(d.as_bytes()), ordinary, "{name}");
    }
}

#[test]
fn void_and_primitives_are_accepted() {
    for d in ["V", "I", "[[J"] {
        assert_eq!(strict_type(d), [0, 0, 0]);
    }
}

#[test]
fn ordinary_faults_come_first() {
    assert_eq!(strict_type("La.b;I"), [15, 5, 0]);
    assert_eq!(strict_type("La.b"), [11, 4, 0]);
    assert_eq!(strict_type("L/;"), [24, 0, 0]);
    assert_eq!(strict_method("(La.b;"), [17, 6, 0]);
    assert_eq!(strict_method("(La.b;)"), [11, 7, 0]);
    assert_eq!(strict_method("(La.b;V)V"), [13, 6, 0]);
    assert_eq!(strict_method("(La.b;)VV"), [15, 8, 0]);
    assert_eq!(strict_method("La.b;"), [16, 0, 0]);
}

#[test]
fn the_first_name_in_input_order_counts() {
    assert_eq!(strict_method("(La.b;)V"), [24, 1, 0]);
    assert_eq!(strict_method("([La.b;La.c;)La.d;"), [24, 2, 0]);
    assert_eq!(strict_method("(La;[[L/;)L/;"), [24, 6, 0]);
    assert_eq!(strict_method("(La;I)[La/;"), [24, 7, 0]);
    assert_eq!(strict_method("(La;)Lb;"), [0, 0, 0]);
}

#[test]
fn the_last_of_255_parameters_counts() {
    let d = format!("({}La.b;)V", "I".repeat(254));
    assert_eq!(strict_method(&d), [24, 255, 0]);
    let late = format!("({}La.b;)V", "I".repeat(255));
    assert_eq!(strict_method(&late), [19, 256, 0]);
}
