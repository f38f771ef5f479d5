//! The folder of statements.
use crate::statement::Statement;
use crate::sums::sum_of_text;
use machine::streams::replace_file;
use std::fs;
use std::io;
use std::os::unix::ffi::OsStrExt;
use std::path::{Path, PathBuf};

/// How many digits of a digest tell products apart, since several folders may have products of one name.
const DIGITS: usize = 16;
/// How many letters of a product's name a statement's name has at most, because with what is added it must
/// stay below a file system's 255.
const LONGEST: usize = 50;

/// Where the statement of a product is, given its whole path: by its name, and by a digest of its real place.
pub fn place_of(folder: &Path, product: &Path) -> PathBuf {
    let name = product.file_name().unwrap_or_default();
    let above = product.parent().and_then(|above| fs::canonicalize(above).ok());
    let real = above.map_or_else(|| product.to_owned(), |above| above.join(name));
    let name: String = name.to_string_lossy().chars().take(LONGEST).collect();
    let sum = sum_of_text(real.as_os_str().as_bytes());
    folder.join(format!("{name}-{}.json", &sum[..DIGITS]))
}

/// Puts the statement of a product in its place.
/// Errors: those of the disk.
pub fn put(folder: &Path, product: &Path, statement: &Statement) -> io::Result<()> {
    let mut text = serde_json::to_vec_pretty(statement)?;
    text.push(b'\n');
    replace_file(&place_of(folder, product), &text)
}

#[cfg(test)]
mod tests {
    use super::*;

    #[test]
    fn products_of_one_name_have_places_of_their_own() {
        let place =
            |product: &str| place_of(Path::new("/s"), Path::new(product)).to_string_lossy().into_owned();
        let name = place("/a/k.o");
        let digits = name.strip_prefix("/s/k.o-").and_then(|rest| rest.strip_suffix(".json"));
        assert_eq!(digits.map(str::len), Some(DIGITS), "{name}");
        assert_ne!(place("/a/k.o"), place("/b/k.o"));
        let long = place(&format!("/a/{}.o", "é".repeat(100)));
        assert_eq!(long.chars().count(), "/s/".len() + LONGEST + "-.json".len() + DIGITS);
    }
}
