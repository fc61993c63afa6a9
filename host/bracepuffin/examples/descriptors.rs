//! Reads method descriptors and writes them again from the words of their types; says what is refused, and where.
//!
//!     cargo run --example descriptors -- '(I[Ljava/lang/String;)V' '(I[V)V'

use bracepuffin::{read_method, ArgType, Base, Names, Refusal, TypeWord};

/// The method's types, a line each, and its descriptor, written by a table of the classes that it names.
pub fn shown(text: &str) -> Result<String, Refusal> {
    let method = read_method(text.as_bytes())?;
    let types = || method.parameters.iter().chain([&method.return_type]);
    let classes = types().filter_map(|ty| match ty.base {
        Base::Object(name) => Some(name),
        _ => None,
    });
    let names = Names::new(classes)?;
    let word = |ty: &ArgType| names.word(*ty);
    let words = types()
        .map(word)
        .collect::<Result<Vec<TypeWord>, Refusal>>()?;
    let lines = types()
        .zip(&words)
        .map(|(ty, word)| format!("  {word} {ty}\n"));
    let lines: String = lines.collect();
    let (result, parameters) = words.split_last().expect("the return type");
    Ok(format!(
        "{}\n{lines}",
        names.write_method(parameters, *result)?
    ))
}

#[allow(dead_code)]
fn main() {
    for text in std::env::args().skip(1) {
        match shown(&text) {
            Ok(shown) => print!("{shown}"),
            Err(refusal) => println!("{text}: refused {}, {refusal}", refusal.number()),
        }
    }
}
