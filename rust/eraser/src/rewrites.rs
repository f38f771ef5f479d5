//! What plain Rust says in another way. All else that the eraser does is to delete.

/// Where a rewrite puts its text.
enum Place {
    /// In place of this text.
    Of(&'static str),
    /// Behind the comment that begins the file.
    Top,
}

/// A rewrite of files that have a text.
struct Rewrite {
    name: &'static str,
    /// The text that files to rewrite have.
    mark: &'static str,
    place: Place,
    new: &'static str,
}

const MAIN: &str = "fn main(rt: HostRuntime) -> ExitCode {";

const REWRITES: [Rewrite; 4] = [
    // Rust's own start of a process allocates, and opens what is closed. So the program begins at C's `main`.
    Rewrite {
        name: "no_main",
        mark: MAIN,
        place: Place::Top,
        new: "#![no_main]\n\n",
    },
    Rewrite {
        name: "program",
        mark: MAIN,
        place: Place::Of(MAIN),
        new: "std::program!(main);\n\nfn main(rt: HostRuntime) -> ExitCode {",
    },
    // `str` has a `replace` of its own, which a trait can't replace.
    Rewrite {
        name: "replace",
        mark: "text.replace(alloc, old, new)",
        place: Place::Of("text.replace(alloc, old, new)"),
        new: "text.replace_in(alloc, old, new)",
    },
    // `Iterator` has a `collect` of its own, which a trait can't replace.
    Rewrite {
        name: "collect",
        mark: ".collect(alloc)",
        place: Place::Of(".collect(alloc)"),
        new: ".collect_in(alloc)",
    },
];

/// The text with its rewrites, and their names.
pub fn rewritten(text: String) -> (String, Vec<&'static str>) {
    let (mut text, mut names) = (text, Vec::new());
    for rewrite in REWRITES {
        if !text.contains(rewrite.mark) {
            continue;
        }
        text = match rewrite.place {
            Place::Of(old) => text.replace(old, rewrite.new),
            Place::Top => {
                let (comment, rest) = text.split_at(front_length(&text));
                format!("{comment}{}{rest}", rewrite.new)
            }
        };
        names.push(rewrite.name);
    }
    (text, names)
}

// How long the lines are that begin a file and document it.
fn front_length(text: &str) -> usize {
    let lines = text.split_inclusive('\n');
    lines
        .take_while(|it| it.starts_with("//!"))
        .map(str::len)
        .sum()
}
