//! Contents as they travel, compressed if both sides can do that.
use crate::api::v2::{Digest, compressor};

/// Contents with less bytes aren't worth it.
const LEAST: usize = 1 << 10;
/// How much zstd may add to a content that it can't make shorter: a 256th, and so many bytes.
const ADDED: usize = 64 << 10;

/// Whether this build can compress.
pub const IS_HERE: bool = cfg!(feature = "zstd");

/// How a content travels.
#[derive(Clone, Copy, PartialEq, Eq, Debug)]
pub enum Form {
    Plain,
    Zstd,
}

impl Form {
    /// The form of a message's compressor. `None` if nobody here knows it.
    #[must_use]
    pub fn of(number: i32) -> Option<Form> {
        match compressor::Value::try_from(number).ok()? {
            compressor::Value::Identity => Some(Form::Plain),
            compressor::Value::Zstd => Some(Form::Zstd),
        }
    }

    /// The compressor's number in a message.
    #[must_use]
    pub fn number(self) -> i32 {
        (if self == Form::Zstd { compressor::Value::Zstd } else { compressor::Value::Identity }) as i32
    }

    /// What a stream's name has in front of a digest.
    #[must_use]
    pub fn folder(self) -> &'static str {
        if self == Form::Zstd { "compressed-blobs/zstd" } else { "blobs" }
    }

    /// The most bytes in which a content of this digest travels.
    #[must_use]
    pub fn most(self, digest: &Digest) -> usize {
        let size = usize::try_from(digest.size_bytes).unwrap_or(usize::MAX);
        if self == Form::Zstd { size.saturating_add(size / 256).saturating_add(ADDED) } else { size }
    }
}

/// A content in the form in which it travels to a server that takes zstd, or doesn't.
#[must_use]
pub fn packed(content: Vec<u8>, takes_zstd: bool) -> (Vec<u8>, Form) {
    let compressed = (takes_zstd && content.len() >= LEAST).then(|| zstd::compressed(&content)).flatten();
    match compressed.filter(|compressed| compressed.len() < content.len()) {
        Some(compressed) => (compressed, Form::Zstd),
        None => (content, Form::Plain),
    }
}

/// A content that came in a form. `None` if it isn't one of that many bytes: however long a content would
/// become, no more memory is taken.
#[must_use]
pub fn unpacked(content: Vec<u8>, form: Form, size: usize) -> Option<Vec<u8>> {
    if form == Form::Zstd { zstd::decompressed(&content, size) } else { Some(content) }
}

#[cfg(feature = "zstd")]
mod zstd {
    use std::io::Read;
    use zstd::stream::read::Decoder;

    /// The fastest of its usual levels: a network takes longer than a better one saves.
    const LEVEL: i32 = 1;

    pub fn compressed(content: &[u8]) -> Option<Vec<u8>> {
        zstd::bulk::compress(content, LEVEL).ok()
    }

    pub fn decompressed(content: &[u8], size: usize) -> Option<Vec<u8>> {
        let (mut whole, most) = (Vec::new(), u64::try_from(size).unwrap_or(u64::MAX).saturating_add(1));
        Decoder::new(content).ok()?.take(most).read_to_end(&mut whole).ok()?;
        (whole.len() <= size).then_some(whole)
    }
}

#[cfg(not(feature = "zstd"))]
mod zstd {
    pub fn compressed(_: &[u8]) -> Option<Vec<u8>> {
        None
    }

    pub fn decompressed(_: &[u8], _: usize) -> Option<Vec<u8>> {
        None
    }
}

#[cfg(test)]
mod tests {
    use super::*;
    use sha2::{Digest as _, Sha256};

    #[test]
    fn what_gets_no_shorter_travels_as_it_is() {
        let noise: Vec<u8> = (0..128_u8).flat_map(|number| Sha256::digest([number])).collect();
        for (content, takes) in [(b"short".to_vec(), true), (vec![0; 4096], false), (noise, true)] {
            assert!(packed(content.clone(), takes) == (content, Form::Plain));
        }
    }

    #[cfg(feature = "zstd")]
    #[test]
    fn a_content_comes_out_as_it_went_in() {
        let content = b"a line of a text\n".repeat(1000);
        let (short, form) = packed(content.clone(), true);
        assert!(form == Form::Zstd && short.len() < content.len() / 10);
        assert_eq!(unpacked(short.clone(), form, content.len()), Some(content.clone()));
        let twice = [short.clone(), short.clone()].concat();
        assert_eq!(unpacked(twice, form, 2 * content.len()), Some(content.repeat(2)), "frames in a row");
        assert_eq!(unpacked(short, form, content.len() - 1), None, "one that becomes longer than it may");
        assert_eq!(unpacked(b"no frame".to_vec(), form, 8), None);
    }

    #[test]
    fn forms_have_the_numbers_and_names_of_the_api() {
        assert_eq!((Form::of(0), Form::of(1), Form::of(2)), (Some(Form::Plain), Some(Form::Zstd), None));
        assert_eq!((Form::Plain.number(), Form::Zstd.number()), (0, 1));
        let digest = Digest { hash: "a".into(), size_bytes: 512 };
        assert_eq!((Form::Plain.most(&digest), Form::Zstd.most(&digest)), (512, 514 + ADDED));
    }
}
