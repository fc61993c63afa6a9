//! The header compiles as C and as C++ and names the refusals as `Refusal` does; what the worked calls from C print is compared
//! with the manual in `tests/manual`. A machine without a compiler fails these tests: `.ci/host-env` installs one.

#[path = "shared/programs.rs"]
mod programs;

use std::fs;
use std::path::Path;
use std::process::Command;

use bracepuffin::{ffi, PARAMETERS, TYPE_BYTES, WORK};
use programs::{compiler, file, include, linking, prints, run, WARNINGS};

/// The header's names of refusals with the numbers that the declarations in Rust have for them.
macro_rules! refusals {
    ($($name:ident)*) => { [$((stringify!($name), ffi::$name)),*] };
}

const REFUSALS: [(&str, u64); 21] = refusals! {
    BP_REFUSED_LENGTH BP_REFUSED_NAME_ORDER BP_REFUSED_NUMBER BP_REFUSED_TYPE BP_REFUSED_ROOM BP_REFUSED_NO_OBJECT
    BP_REFUSED_UTF8 BP_REFUSED_UNEXPECTED_END BP_REFUSED_UNEXPECTED_BYTE BP_REFUSED_VOID_NOT_ALLOWED
    BP_REFUSED_EMPTY_OBJECT BP_REFUSED_TRAILING_INPUT BP_REFUSED_MISSING_METHOD_START BP_REFUSED_MISSING_METHOD_END
    BP_REFUSED_TOO_MANY_DIMENSIONS BP_REFUSED_TOO_MANY_PARAMETERS BP_REFUSED_DEEP BP_REFUSED_BOUNDS BP_REFUSED_SHORT BP_REFUSED_ABSENT BP_REFUSED_STRICT
};

const METHOD_BYTES: usize = 2 + (PARAMETERS + 1) * TYPE_BYTES;

/// What the header's macros are.
const MACROS: [(&str, u64); 15] = [
    ("BP_PARAMS", PARAMETERS as u64),
    ("BP_OPENS_LAYER", ffi::BP_OPENS_LAYER),
    ("BP_WORK", WORK as u64),
    ("BP_BOUNDS", ffi::BP_BOUNDS as u64),
    ("BP_PART_COLUMNS", ffi::BP_PART_COLUMNS),
    ("BP_PART_NAMES", ffi::BP_PART_NAMES),
    ("BP_PART_RECORDS", ffi::BP_PART_RECORDS),
    ("BP_PART_OBJECT", ffi::BP_PART_OBJECT),
    ("BP_TYPE_BYTES", TYPE_BYTES as u64),
    ("BP_METHOD_BYTES", METHOD_BYTES as u64),
    ("BP_UNREACHED", u64::MAX >> 2),
    ("BP_NONE", u64::MAX),
    ("BP_ARRAY(1, BP_PRIMITIVE(BP_INT))", 0x0100_0000_0000_0005),
    (
        "BP_ARRAY(1, BP_ARRAY(2, BP_CLASS(7)))",
        0x0301_0000_0000_0007,
    ),
    (
        "BP_ARRAY(1, BP_ARRAY(255, BP_CLASS(7)))",
        0x0001_0000_0000_0007,
    ),
];

/// A program that compiles where each of these expressions has its value.
fn program(values: &[(&str, u64)]) -> String {
    let mut text = String::from("#include \"bracepuffin.h\"\n");
    for (place, (expression, value)) in values.iter().enumerate() {
        text += &format!("typedef char is_{place}[({expression}) == {value:#x} ? 1 : -1];\n");
    }
    text
}

#[test]
fn the_header_is_c_and_cpp() {
    let source = Path::new(env!("CARGO_TARGET_TMPDIR")).join("values.c");
    let values = [&REFUSALS[..], &MACROS[..]].concat();
    fs::write(&source, program(&values)).expect("the program is written");
    let c = compiler(&["cc", "gcc"], "");
    let cpp = compiler(&["c++", "g++"], "");
    for (compiler, language, standard) in [
        (c, "c", "c99"),
        (c, "c", "c11"),
        (cpp, "c++", "c++98"),
        (cpp, "c++", "c++11"),
        (cpp, "c++", "c++17"),
    ] {
        let mut command = Command::new(compiler);
        command.args(["-fsyntax-only", "-x", language, &format!("-std={standard}")]);
        command.args(WARNINGS).arg("-I").arg(include());
        run(command.arg(&source));
    }
}

/// A literal null is warned of; the forms over structs take it.
#[test]
fn a_null_is_warned_of() {
    let source = Path::new(env!("CARGO_TARGET_TMPDIR")).join("null.c");
    for (call, warned) in [
        ("bp_read_type(NULL, 0).refusal", true),
        ("bp_lookup_of(&none, NULL, 0).refusal", false),
    ] {
        let text = format!("BpNames none;\nuint64_t asked(void) {{ return {call}; }}\n");
        fs::write(&source, format!("#include \"bracepuffin.h\"\n{text}")).expect("written");
        let mut command = Command::new(compiler(&["cc", "gcc"], ""));
        command.arg("-fsyntax-only").args(WARNINGS);
        let output = command.arg("-I").arg(include()).arg(&source).output();
        let accepted = output.expect("the command starts").status.success();
        assert_eq!(accepted, !warned, "{call}");
    }
}

/// A file that includes the header and calls nothing, linked with the archive: with the header of another version, the
/// linker names what is missing.
#[test]
fn the_header_of_another_version_does_not_link() {
    let header = fs::read_to_string(include().join("bracepuffin.h")).expect("the header");
    for version in ["bp_abi_1", "bp_abi_0"] {
        let folder = Path::new(env!("CARGO_TARGET_TMPDIR")).join(version);
        fs::create_dir_all(&folder).expect("a folder");
        let header = header.replace("bp_abi_1", version);
        fs::write(folder.join("bracepuffin.h"), header).expect("written");
        let source = folder.join("main.c");
        let text = "#include \"bracepuffin.h\"\nint main(void) { return 0; }\n";
        fs::write(&source, text).expect("written");
        let mut command = Command::new(linking());
        command.args(["-O2", "-I"]).arg(&folder).arg(&source);
        command.arg(env!("BRACEPUFFIN_ARCHIVE"));
        let output = command.arg("-o").arg(folder.join("main")).output();
        let output = output.expect("the command starts");
        let errors = String::from_utf8_lossy(&output.stderr);
        assert_eq!(output.status.success(), version == "bp_abi_1", "{errors}");
        assert_eq!(
            errors.contains("bp_abi_0"),
            version == "bp_abi_0",
            "{errors}"
        );
    }
    // The Rust side asks for it too.
    // SAFETY: a function without parameters.
    assert_eq!(unsafe { ffi::bp_abi_1() }, 1);
}

#[test]
fn the_header_names_no_other_refusal() {
    let header = fs::read_to_string(include().join("bracepuffin.h")).expect("the header");
    let named = |line: &&str| line.trim_start().starts_with("BP_REFUSED_");
    assert_eq!(header.lines().filter(named).count(), REFUSALS.len());
}

const NO_ANSWERS: &str = r#"#include <stdio.h>
#include "bracepuffin.h"
static BpBounds final;
static BpWork work;
int main(void) {
    static const uint8_t names[] = "java/lang/Object";
    static const uint64_t at[] = {0}, len[] = {16}, var_comp[] = {0};
    BpClasses table = {{names, 16, at, len, 1}, NULL, NULL, NULL, NULL, 0, NULL, 0};
    BpProblem problem = {0};
    printf("%d", (int)bp_solve_of(&table, &problem, NULL, &final, &work).refusal);
    problem.components = 1, problem.var_comp = var_comp, problem.var_count = 1;
    printf(" %d", (int)bp_solve_of(&table, &problem, NULL, &final, &work).refusal);
    return 0;
}
"#;

/// Null for the answers has room for no variable.
#[test]
fn null_for_the_answers() {
    let source = Path::new(env!("CARGO_TARGET_TMPDIR")).join("no_answers.c");
    fs::write(&source, NO_ANSWERS).expect("written");
    assert_eq!(prints(&source, "no_answers", &["-std=c99"]), "0 22");
}

/// The program of the manual ends well, with a compiler's warnings as errors, also as C11.
#[test]
fn the_worked_call() {
    let call = file("host/examples/call.c");
    let printed = prints(&call, "call", &["-std=c99"]);
    assert!(printed.starts_with("[La/TrussA; is 0101000000000001\n"));
    assert_eq!(printed, prints(&call, "call11", &["-std=c11", "-O2"]));
}

/// It ends with the worked problem.
#[test]
fn the_worked_solve() {
    let printed = prints(&file("host/examples/call.c"), "call_solve", &["-std=c99"]);
    let (_, solve) = printed.split_once("variable 0: ").expect("a solve");
    let mut lines = solve.lines();
    assert_eq!(lines.next(), Some("0001000000000000"));
    assert_eq!(lines.next(), Some("variable 1: 0001000000000000"));
    assert_eq!(lines.next(), Some("5 bounds after 3 turns"));
    assert_eq!(lines.count(), 5);
}
