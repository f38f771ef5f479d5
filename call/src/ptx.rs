//! What PTX says of files beside it.

/// By this, PTX names a file for debuggers.
const FILE: &[u8] = b".file";

/// The file that a directive names, given what follows its word: a number, and the name in quotes. `None` if
/// it may mean another.
fn named(rest: &[u8]) -> Option<&[u8]> {
    let rest = rest.trim_ascii_start();
    let digits = rest.iter().take_while(|byte| byte.is_ascii_digit()).count();
    let name = rest[digits..].trim_ascii_start().strip_prefix(b"\"")?;
    let name = &name[..name.iter().position(|byte| *byte == b'"')?];
    (!name.contains(&b'\\')).then_some(name)
}

/// The files that PTX names, wherever the directives stand: code in a source may have some, too. Of each,
/// ptxas writes the size, and when it was changed. `None` for one that may be named in a way that isn't known
/// here.
pub fn names_in_ptx(ptx: &[u8]) -> impl Iterator<Item = Option<&[u8]>> {
    let directives = ptx.windows(FILE.len()).enumerate().filter(|(_, word)| *word == FILE);
    directives.map(|(place, _)| named(&ptx[place + FILE.len()..]))
}

/// The same as a list. `None` if one may be named in a way that isn't known here.
#[must_use]
pub fn files_of_ptx(ptx: &[u8]) -> Option<Vec<&[u8]>> {
    names_in_ptx(ptx).collect()
}

#[cfg(test)]
mod tests {
    use super::*;

    #[test]
    fn directives_stand_anywhere() {
        let cases: [(&str, Option<&[&str]>); 9] = [
            (".version 8\n\t.file\t1 \"/w/k.cu\"\n.file 2 \"a b.h\", 12, 34\n", Some(&["/w/k.cu", "a b.h"])),
            ("ret; } .file 1 \"k.h\"", Some(&["k.h"])),
            (".file\n1\n\"k.h\"", Some(&["k.h"])),
            (".loc 1 2 3", Some(&[])),
            (".file 1 /* \" */ \"k.h\"", None),
            (".file 1 \"k\\\"h\"", None),
            (".file 1 \"k.h", None),
            (".filex 3 \"c\"", None),
            (".file", None),
        ];
        for (ptx, wanted) in cases {
            let wanted = wanted.map(|names| names.iter().map(|name| name.as_bytes()).collect::<Vec<_>>());
            assert_eq!(files_of_ptx(ptx.as_bytes()), wanted, "{ptx}");
        }
    }
}
