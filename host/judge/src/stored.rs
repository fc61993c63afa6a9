//! What is stored beside the crates: the vectors, which are the input of each program that replays them, and the input and the
//! output of the program that reads hex lines.

pub const LEAVES: &str = include_str!("../../../crates/replay_leaves/stdin");
pub const DESCRIPTORS: &str = include_str!("../../../crates/replay_descriptors/stdin");
pub const QUERIES: &str = include_str!("../../../crates/replay_queries/stdin");
pub const SOLVES: &str = include_str!("../../../crates/replay_solves/stdin");

/// Every file of vectors, in the order of the recorder's.
pub const FILES: [&str; 4] = [LEAVES, DESCRIPTORS, QUERIES, SOLVES];

/// The scope paper's example of hex lines.
pub const PAPER: &str = include_str!("../../../examples/paper.hex");

/// The run of the program that reads hex lines: its input, and what it prints.
pub const RUN_INPUT: &[u8] = include_bytes!("../../../crates/typeline/stdin");
pub const RUN_OUTPUT: &str = include_str!("../../../crates/typeline/stdout");
