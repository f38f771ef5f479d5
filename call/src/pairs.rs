//! Whether two dry runs are one call's: the second says what the first says, with the directory for temporary
//! files in front of names.
use crate::error::{Error, Unfit};
use dry_run_pairs::without_folder;
use rattle_std::alloc::Global;

/// The lines of a dry run that say something, without blanks at their ends, each with its number from 1.
/// Which files nvcc removes says nothing.
fn marked_lines(dry_run: &[u8]) -> impl Iterator<Item = (usize, &[u8])> {
    let lines = (1..).zip(dry_run.split(|byte| *byte == b'\n'));
    let says = |line: &[u8]| line.starts_with(b"#$ ") && !line.starts_with(b"#$ rm ");
    lines.filter(move |(_, line)| says(line)).map(|(number, line)| (number, line.trim_ascii_end()))
}

/// Refuses dry runs that differ by more than the directory.
pub(crate) fn check_pair(first: &[u8], second: &[u8], tmp: &str) -> Result<(), Error> {
    let bare = without_folder(Global, second, tmp)?;
    let mut lines = marked_lines(first);
    let mut others = marked_lines(&bare);
    loop {
        match (lines.next(), others.next()) {
            (None, None) => return Ok(()),
            (Some((_, line)), Some((_, other))) if line == other => {}
            (Some(_), Some((number, _))) => return Err(Error::no_dry_run(Unfit::Differ).at_line(2, number)),
            (Some(_), None) => return Err(Error::no_dry_run(Unfit::Lines).at_line(1, 0)),
            (None, Some(_)) => return Err(Error::no_dry_run(Unfit::Lines).at_line(2, 0)),
        }
    }
}

#[cfg(test)]
mod tests {
    use super::*;

    #[test]
    fn lines_that_say_something() {
        let lines: Vec<_> = marked_lines(b"warning\n#$ A=1 \n#$ rm k\n#$ gcc").collect();
        assert_eq!(lines, [(2, b"#$ A=1".as_slice()), (4, b"#$ gcc")]);
    }

    #[test]
    fn a_pair_differs_by_the_directory_alone() {
        let place = |first: &str, second: &str| {
            check_pair(first.as_bytes(), second.as_bytes(), "/t")
                .err()
                .map(|error| (error.to_string(), error.place().and_then(|it| it.line)))
        };
        let differ = |line| {
            Some((
                "the dry runs differ by more than the directory for temporary files".to_owned(),
                Some(line),
            ))
        };
        let lines = Some(("the dry runs have different numbers of lines".to_owned(), None));
        let cases = [
            ("#$ cicc \"k.ii\" -o=k.ptx", "#$ cicc \"/t/k.ii\" -o=/t/k.ptx", None),
            ("#$ gcc\n#$ rm k", "note\n#$ gcc \n", None),
            ("#$ cicc \"k.ii\"", "#$ cicc \"/u/k.ii\"", differ(1)),
            ("#$ gcc\n#$ as", "#$ gcc\nnote\n#$ ld", differ(3)),
            ("#$ gcc\n#$ as", "#$ gcc", lines.clone()),
            ("#$ gcc", "#$ gcc\n#$ as", lines),
        ];
        for (first, second, wanted) in cases {
            assert_eq!(place(first, second), wanted, "{first} {second}");
        }
    }
}
