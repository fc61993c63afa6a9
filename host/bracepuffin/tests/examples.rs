//! The examples, and what they print.

#[path = "../examples/descriptors.rs"]
mod descriptors;
#[path = "../examples/hierarchy.rs"]
mod hierarchy;

use bracepuffin::Refusal;

#[test]
fn descriptors() {
    let shown = descriptors::shown("(I[Ljava/lang/String;)V").expect("a method");
    let expected = "(I[Ljava/lang/String;)V
  0000000000000005 int
  0101000000000000 String[]
  0000000000000000 void
";
    assert_eq!(shown, expected);
    let refused = descriptors::shown("(I[V)V");
    assert_eq!(refused, Err(Refusal::VoidNotAllowed { offset: 3 }));
}

#[test]
fn hierarchy() {
    let table = hierarchy::shapes().expect("a table");
    let expected = [
        "a/Round, a/Shape
  relation Yes
  distance Steps(1)
  supertype a/Shape
  cast true
  join Shape
",
        "a/Square, a/Round
  relation Unknown
  distance NoAncestor
  supertype a/Shape
  cast false
  join Shape
",
        "a/Round, x/Never
  relation No
  distance NoAncestor
  supertype java/lang/Object
  cast false
  join Object
",
    ];
    assert_eq!(hierarchy::all(&table), expected);
}
