//! Contents by their digests.
use crate::api::v2::Digest;
use prost::Message;
use sha2::{Digest as _, Sha256};
use std::fs::File;
use std::io;
use std::path::{Path, PathBuf};

fn hexadecimal(bytes: &[u8]) -> String {
    let digit = |half: u8| char::from(b"0123456789abcdef"[usize::from(half)]);
    bytes.iter().flat_map(|byte| [digit(byte >> 4), digit(byte & 15)]).collect()
}

fn of_parts(hash: Sha256, size: u64) -> Digest {
    Digest { hash: hexadecimal(&hash.finalize()), size_bytes: i64::try_from(size).unwrap_or(i64::MAX) }
}

/// The digest of a content in memory.
#[must_use]
pub fn digest_of(content: &[u8]) -> Digest {
    of_parts(Sha256::new_with_prefix(content), content.len() as u64)
}

/// The digest of a file's content.
/// An error if it can't be read.
pub fn digest_of_file(path: &Path) -> io::Result<Digest> {
    let mut hash = Sha256::new();
    let size = io::copy(&mut File::open(path)?, &mut hash)?;
    Ok(of_parts(hash, size))
}

/// Where a content is.
#[derive(Clone, PartialEq, Eq, Debug)]
pub enum Content {
    Memory(Vec<u8>),
    File(PathBuf),
}

/// A content that a server may lack.
#[derive(Clone, PartialEq, Eq, Debug)]
pub struct Blob {
    pub digest: Digest,
    pub content: Content,
}

impl Blob {
    #[must_use]
    pub fn of(content: Vec<u8>) -> Blob {
        Blob { digest: digest_of(&content), content: Content::Memory(content) }
    }

    #[must_use]
    pub fn of_message(message: &impl Message) -> Blob {
        Blob::of(message.encode_to_vec())
    }

    /// An error if the file can't be read.
    pub fn of_file(path: &Path) -> io::Result<Blob> {
        Ok(Blob { digest: digest_of_file(path)?, content: Content::File(path.to_owned()) })
    }

    /// The content.
    /// An error if its file can't be read.
    pub fn bytes(&self) -> io::Result<Vec<u8>> {
        match &self.content {
            Content::Memory(content) => Ok(content.clone()),
            Content::File(path) => std::fs::read(path),
        }
    }

    /// The path of its file; empty if it is in memory.
    #[must_use]
    pub fn path(&self) -> &Path {
        match &self.content {
            Content::Memory(_) => Path::new(""),
            Content::File(path) => path,
        }
    }

    #[must_use]
    pub fn size(&self) -> usize {
        usize::try_from(self.digest.size_bytes).unwrap_or_default()
    }
}

#[cfg(test)]
mod tests {
    use super::*;

    /// The SHA-256 of nothing and of `abc`, from FIPS 180-4.
    const EMPTY: &str = "e3b0c44298fc1c149afbf4c8996fb92427ae41e4649b934ca495991b7852b855";
    const ABC: &str = "ba7816bf8f01cfea414140de5dae2223b00361a396177a9cb410ff61f20015ad";

    #[test]
    fn contents_have_the_standards_digests() {
        for (content, hash) in [("", EMPTY), ("abc", ABC)] {
            let wanted = Digest { hash: hash.into(), size_bytes: i64::try_from(content.len()).unwrap() };
            let folder = tempfile::tempdir().unwrap();
            let file = folder.path().join("content");
            std::fs::write(&file, content).unwrap();
            assert_eq!(
                (digest_of(content.as_bytes()), digest_of_file(&file).unwrap()),
                (wanted.clone(), wanted)
            );
        }
        assert!(digest_of_file(Path::new("/no/file")).is_err());
    }
}
