//! Files as a statement names them.
use serde::{Deserialize, Serialize};
use std::collections::BTreeMap;
use std::ffi::OsString;
use std::os::unix::ffi::{OsStrExt, OsStringExt};
use std::path::{Path, PathBuf};

/// The algorithm of digests.
const SHA256: &str = "sha256";
const SCHEME: &str = "file://";

/// A file with its digest: a resource descriptor of in-toto.
#[derive(Clone, PartialEq, Eq, Debug, Default, Serialize, Deserialize)]
pub struct Resource {
    /// What the call named it, if it is a product.
    #[serde(default, skip_serializing_if = "Option::is_none")]
    pub name: Option<String>,
    /// Where it is.
    pub uri: String,
    /// Its digest in hexadecimal digits, by the name of its algorithm.
    pub digest: BTreeMap<String, String>,
}

impl Resource {
    /// A file with this path and SHA-256.
    pub fn new(path: &Path, sum: String) -> Resource {
        Resource { name: None, uri: uri_of(path), digest: BTreeMap::from([(SHA256.into(), sum)]) }
    }

    /// Its SHA-256, if it has one.
    pub fn sum(&self) -> Option<&str> {
        self.digest.get(SHA256).map(String::as_str)
    }

    /// Its path, if it is a file.
    pub fn path(&self) -> Option<PathBuf> {
        path_of(&self.uri)
    }
}

/// The URI of a file. A byte that means something in one, or is no printable ASCII, is `%` and two digits.
pub fn uri_of(path: &Path) -> String {
    let is_plain = |byte: u8| byte.is_ascii_alphanumeric() || b"/-._~+".contains(&byte);
    let encoded =
        |&byte: &u8| if is_plain(byte) { char::from(byte).to_string() } else { format!("%{byte:02X}") };
    SCHEME.chars().map(String::from).chain(path.as_os_str().as_bytes().iter().map(encoded)).collect()
}

/// The path in the URI of a file. `None` for any other text.
pub fn path_of(uri: &str) -> Option<PathBuf> {
    let mut rest = uri.strip_prefix(SCHEME).filter(|path| path.starts_with('/'))?.bytes();
    let mut path = Vec::new();
    while let Some(byte) = rest.next() {
        path.push(if byte == b'%' { digit(rest.next()?)? * 16 + digit(rest.next()?)? } else { byte });
    }
    Some(OsString::from_vec(path).into())
}

fn digit(byte: u8) -> Option<u8> {
    char::from(byte).to_digit(16).and_then(|digit| u8::try_from(digit).ok())
}

#[cfg(test)]
mod tests {
    use super::*;
    use std::ffi::OsStr;

    #[test]
    fn paths_and_uris_are_each_others() {
        for (path, uri) in [
            (&b"/usr/include/c++/12/a-b_c.h"[..], "file:///usr/include/c++/12/a-b_c.h"),
            (b"/a b/%41", "file:///a%20b/%2541"),
            (b"/\xff\n?#", "file:///%FF%0A%3F%23"),
        ] {
            let path = Path::new(OsStr::from_bytes(path));
            assert_eq!((uri_of(path).as_str(), path_of(uri).as_deref()), (uri, Some(path)));
        }
        for other in ["file://host/a", "file:///a%", "file:///a%4", "file:///%xy", "https://a/b", "/a", ""] {
            assert_eq!(path_of(other), None, "{other}");
        }
    }
}
