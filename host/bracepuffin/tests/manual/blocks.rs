//! The blocks of a document, each with its mark: the comment in the line before it.
//!
//! | mark | the block is |
//! |---|---|
//! | `from PATH: NAME` | the part NAME of that file, word for word |
//! | `printed by PATH` | what that program prints; several of one program are the parts of it, in order |
//! | `frames`, `frames of PATH` | frames, each with a remark behind it; all lines of that file |
//! | `said`, `said of PATH` | what `typeline` prints for the frames before, or for that file |
//! | `command` | for a shell |
//! | `drawing` | for the eye |

use crate::programs::text;

/// A block: where it stands, its mark, its lines.
pub struct Block {
    pub place: String,
    pub mark: String,
    pub lines: Vec<String>,
}

impl Block {
    /// The lines, each with its end.
    pub fn text(&self) -> String {
        self.lines.iter().map(|line| format!("{line}\n")).collect()
    }
}

/// All blocks of a document: lines that begin with four blanks, or that stand between two fences.
pub fn blocks(document: &str) -> Vec<Block> {
    let mut blocks: Vec<Block> = Vec::new();
    let (mut before, mut inside, mut fenced) = (String::new(), false, false);
    for (number, line) in text(document).lines().enumerate() {
        let fence = line.starts_with("```");
        let indented = line.starts_with("    ");
        if (fence && !fenced) || (indented && !inside && !fenced) {
            blocks.push(Block {
                place: format!("{document}, line {}", number + 1),
                mark: marked(&before),
                lines: Vec::new(),
            });
        }
        fenced ^= fence;
        if fence {
            continue;
        }
        let shown = match (fenced, indented) {
            (true, _) => Some(line),
            (false, true) => Some(&line[4..]),
            (false, false) => (inside && line.is_empty()).then_some(line),
        };
        inside = shown.is_some() && !fenced;
        match (shown, blocks.last_mut()) {
            (Some(shown), Some(block)) => block.lines.push(shown.to_owned()),
            _ if line.is_empty() => {}
            _ => before = line.to_owned(),
        }
    }
    for block in &mut blocks {
        while block.lines.last().is_some_and(String::is_empty) {
            block.lines.pop();
        }
    }
    blocks
}

fn marked(line: &str) -> String {
    let mark = line
        .strip_prefix("<!-- ")
        .and_then(|rest| rest.strip_suffix(" -->"));
    mark.unwrap_or_default().to_owned()
}

/// The part of a file between the lines `manual: NAME` and `manual: end`, moved to the left.
pub fn part(path: &str, name: &str) -> String {
    let source = text(path);
    let marks = |line: &str, name: &str| {
        let line = line.trim();
        line == format!("// manual: {name}") || line == format!("/* manual: {name} */")
    };
    let lines = source.lines().skip_while(|line| !marks(line, name)).skip(1);
    let lines: Vec<&str> = lines.take_while(|line| !marks(line, "end")).collect();
    let indent = |line: &&&str| line.len() - line.trim_start().len();
    let filled = lines.iter().filter(|line| !line.is_empty());
    let indent = filled.map(|line| indent(&line)).min().unwrap_or(0);
    let moved = lines.iter().map(|line| line.get(indent..).unwrap_or(""));
    moved.map(|line| format!("{line}\n")).collect()
}
