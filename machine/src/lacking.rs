//! Programs that can't be run, and why.
use crate::excerpts::plain;
use crate::nearest::shown;
use call::compiler::is_nvcc;
use std::ffi::OsStr;
use std::fs;
use std::io;
use std::os::unix::ffi::OsStrExt;
use std::path::Path;

/// What to do if the program that is lacking is nvcc.
const ADVICE: &str = "; add nvcc's folder to PATH, or set ZIGRUNK_NVCC to its path";

/// Why a program can't be run, given the error that says it.
pub fn cannot_run(program: &OsStr, error: &io::Error) -> String {
    format!("cannot run {}: {}", shown(program), plain(error))
}

/// Why no program is found by a name or path, which is below this folder if it is relative.
pub fn not_found(program: &OsStr, folder: &Path) -> String {
    let advice = if is_nvcc(program.as_bytes()) { ADVICE } else { "" };
    if !program.as_bytes().contains(&b'/') {
        return format!("cannot find {} in PATH{advice}", shown(program));
    }
    let complaint = match fs::metadata(folder.join(program)) {
        Err(error) => cannot_run(program, &error),
        Ok(file) if file.is_dir() => format!("cannot run {}: it is a folder", shown(program)),
        Ok(_) => format!("cannot run {}: it is no program, since it has no execute bit", shown(program)),
    };
    complaint + advice
}

#[cfg(test)]
mod tests {
    use super::*;

    #[test]
    fn reasons_name_the_program() {
        let said = |program: &str| not_found(program.as_ref(), Path::new("/etc"));
        assert_eq!(said("cc-1"), "cannot find cc-1 in PATH");
        assert_eq!(said("/no/cc"), "cannot run /no/cc: No such file or directory");
        assert_eq!(said("/etc"), "cannot run /etc: it is a folder");
        assert_eq!(said("./passwd"), "cannot run ./passwd: it is no program, since it has no execute bit");
        for program in ["nvcc", "/no/nvcc", "nvcc-13.0"] {
            assert!(said(program).ends_with(ADVICE), "{program}");
        }
    }
}
