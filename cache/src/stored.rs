//! The form of what the store keeps: that of the crate `postcard`. A path or a text needn't be UTF-8.
use serde::Serialize;
use serde::de::DeserializeOwned;

/// A value as bytes.
pub fn to_bytes(value: &impl Serialize) -> Vec<u8> {
    // (the one error is that of a list without a length, which no record has)
    postcard::to_stdvec(value).unwrap_or_default()
}

/// The value that bytes are; `None` if they are none.
pub fn of_bytes<T: DeserializeOwned>(bytes: &[u8]) -> Option<T> {
    postcard::take_from_bytes(bytes).ok().filter(|(_, rest)| rest.is_empty()).map(|(value, _)| value)
}

/// Lists of texts, each taken as a whole.
pub mod texts {
    use serde::{Deserialize, Deserializer, Serializer};
    use serde_bytes::{ByteBuf, Bytes};

    pub fn serialize<S: Serializer>(texts: &[Vec<u8>], to: S) -> Result<S::Ok, S::Error> {
        to.collect_seq(texts.iter().map(|text| Bytes::new(text)))
    }

    pub fn deserialize<'de, D: Deserializer<'de>>(from: D) -> Result<Vec<Vec<u8>>, D::Error> {
        let texts = Vec::<ByteBuf>::deserialize(from)?;
        Ok(texts.into_iter().map(ByteBuf::into_vec).collect())
    }
}

/// Paths.
pub mod path {
    use serde::{Deserializer, Serializer};
    use std::ffi::OsString;
    use std::os::unix::ffi::{OsStrExt, OsStringExt};
    use std::path::{Path, PathBuf};

    pub fn serialize<S: Serializer>(path: &Path, to: S) -> Result<S::Ok, S::Error> {
        to.serialize_bytes(path.as_os_str().as_bytes())
    }

    pub fn deserialize<'de, D: Deserializer<'de>>(from: D) -> Result<PathBuf, D::Error> {
        let bytes: Vec<u8> = serde_bytes::deserialize(from)?;
        Ok(OsString::from_vec(bytes).into())
    }
}

/// Pairs of paths.
pub mod pairs {
    use serde::{Deserialize, Deserializer, Serialize, Serializer};
    use std::path::PathBuf;

    #[derive(Serialize, Deserialize)]
    struct Pair(#[serde(with = "super::path")] PathBuf, #[serde(with = "super::path")] PathBuf);

    pub fn serialize<S: Serializer>(pairs: &[(PathBuf, PathBuf)], to: S) -> Result<S::Ok, S::Error> {
        to.collect_seq(pairs.iter().map(|(one, other)| Pair(one.clone(), other.clone())))
    }

    pub fn deserialize<'de, D: Deserializer<'de>>(from: D) -> Result<Vec<(PathBuf, PathBuf)>, D::Error> {
        let pairs = Vec::<Pair>::deserialize(from)?;
        Ok(pairs.into_iter().map(|Pair(one, other)| (one, other)).collect())
    }
}
