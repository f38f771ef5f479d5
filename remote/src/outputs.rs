//! What a command made: its files, and what it said.
use crate::action::{Action, Output};
use crate::api::v2::{ActionResult, Digest, ExecutedActionMetadata, OutputFile};
use crate::connection::Connection;
use crate::digest::Blob;
use crate::failure::Failure;
use crate::home::machine;
use std::fs;
use std::io::{self, ErrorKind, Write};

/// What a command said: so much of it is part of a result's message, more is a content of its own.
const MOST_SAID: usize = 1 << 10;

/// What a command made.
#[derive(Clone, PartialEq, Eq, Debug, Default)]
pub struct Made {
    pub status: i32,
    /// The name of the machine where it ran; empty if nobody says so.
    pub machine: String,
    /// The paths of its files, with their contents.
    pub files: Vec<(String, Vec<u8>)>,
    pub out: Vec<u8>,
    pub errors: Vec<u8>,
}

/// Where a content comes from: what a result's message has, or the server.
enum Source {
    Here(Vec<u8>),
    There(Digest),
}

impl Source {
    fn of(raw: &[u8], digest: Option<&Digest>) -> Source {
        match digest.filter(|digest| raw.is_empty() && digest.size_bytes > 0) {
            Some(digest) => Source::There(digest.clone()),
            None => Source::Here(raw.to_vec()),
        }
    }
}

impl Made {
    /// Gets what a result says that an action made. `None` if it is no result of this action: it lacks an
    /// output.
    pub async fn fetch(
        connection: &mut Connection,
        action: &Action,
        result: &ActionResult,
    ) -> Result<Option<Made>, Failure> {
        let file_of = |output: &Output| result.output_files.iter().find(|file| file.path == output.name);
        let outputs = if result.exit_code == 0 { action.outputs.as_slice() } else { &[] };
        if outputs.iter().any(|output| output.is_certain && file_of(output).is_none()) {
            return Ok(None);
        }
        let files: Vec<(&Output, &OutputFile)> =
            outputs.iter().filter_map(|output| Some((output, file_of(output)?))).collect();
        let said = [(&result.stdout_raw, &result.stdout_digest), (&result.stderr_raw, &result.stderr_digest)];
        let said = said.map(|(raw, digest)| Source::of(raw, digest.as_ref()));
        let file_digests = files.iter().map(|(_, file)| file.digest.clone().unwrap_or_default());
        let said_digests = said.iter().filter_map(|source| {
            if let Source::There(digest) = source { Some(digest.clone()) } else { None }
        });
        let digests: Vec<Digest> = file_digests.chain(said_digests).collect();
        let mut contents = connection.fetch(&digests).await?.into_iter();
        let files = files.iter().map(|(output, _)| output.path.clone()).zip(contents.by_ref()).collect();
        let [out, errors] = said.map(|source| match source {
            Source::Here(raw) => raw,
            Source::There(_) => contents.next().unwrap_or_default(),
        });
        let machine = result.execution_metadata.clone().unwrap_or_default().worker;
        Ok(Some(Made { status: result.exit_code, machine, files, out, errors }))
    }

    /// Puts the files in their places, as the command would.
    pub fn put(&self) -> Result<(), Failure> {
        self.files.iter().try_for_each(|(path, content)| {
            fs::write(path, content).map_err(|error| Failure::Disk(path.into(), error))
        })
    }

    /// Says what the command said.
    /// An error if a stream doesn't take it.
    pub fn say(&self) -> io::Result<()> {
        let (mut out, mut errors) = (io::stdout().lock(), io::stderr().lock());
        out.write_all(&self.out)?;
        out.flush()?;
        errors.write_all(&self.errors)
    }
}

/// What a command that ran here has made, as a result with its contents. `None` if it may be shared with
/// nobody: it lacks an output, or a text of it has the path of the command's root. An error if a file can't
/// be read.
pub fn result_of(
    action: &Action,
    root: &str,
    out: &[u8],
    errors: &[u8],
) -> Result<Option<(ActionResult, Vec<Blob>)>, Failure> {
    let execution_metadata = Some(ExecutedActionMetadata { worker: machine() });
    let (mut result, mut blobs) =
        (ActionResult { execution_metadata, ..ActionResult::default() }, Vec::new());
    for output in &action.outputs {
        let content = match fs::read(&output.path) {
            Ok(content) => content,
            Err(error) if error.kind() == ErrorKind::NotFound && !output.is_certain => continue,
            Err(error) => return Err(Failure::Disk(output.path.clone().into(), error)),
        };
        let blob = Blob::of(content);
        result.output_files.push(OutputFile {
            path: output.name.clone(),
            digest: Some(blob.digest.clone()),
            ..OutputFile::default()
        });
        blobs.push(blob);
    }
    (result.stdout_raw, result.stdout_digest) = said(out, &mut blobs);
    (result.stderr_raw, result.stderr_digest) = said(errors, &mut blobs);
    let shows_root = |text: &[u8]| text.windows(root.len()).any(|part| part == root.as_bytes());
    let is_shared =
        blobs.iter().map(Blob::bytes).all(|content| content.is_ok_and(|content| !shows_root(&content)));
    Ok((is_shared && !shows_root(out) && !shows_root(errors)).then_some((result, blobs)))
}

fn said(text: &[u8], blobs: &mut Vec<Blob>) -> (Vec<u8>, Option<Digest>) {
    if text.len() <= MOST_SAID {
        return (text.to_vec(), None);
    }
    let blob = Blob::of(text.to_vec());
    let digest = blob.digest.clone();
    blobs.push(blob);
    (Vec::new(), Some(digest))
}

#[cfg(test)]
mod tests {
    use super::*;

    fn action(folder: &std::path::Path, names: &[(&str, bool)]) -> Action {
        let output = |(name, is_certain): &(&str, bool)| Output {
            name: (*name).to_owned(),
            path: folder.join(name).to_str().unwrap().to_owned(),
            is_certain: *is_certain,
        };
        Action {
            digest: Digest::default(),
            blobs: Vec::new(),
            outputs: names.iter().map(output).collect(),
            words: Vec::new(),
        }
    }

    #[test]
    fn a_result_has_what_was_written_and_said() {
        let folder = tempfile::tempdir().unwrap();
        fs::write(folder.path().join("k.ptx"), "ptx").unwrap();
        let action = action(folder.path(), &[("k.ptx", true), ("k.log", false)]);
        let long = vec![b'x'; MOST_SAID + 1];
        let (result, blobs) = result_of(&action, "/t", b"short", &long).unwrap().unwrap();
        let names: Vec<&str> = result.output_files.iter().map(|file| file.path.as_str()).collect();
        assert_eq!(
            (names, result.stdout_raw.as_slice(), result.stdout_digest),
            (vec!["k.ptx"], b"short".as_slice(), None)
        );
        assert_eq!(
            (result.stderr_raw, result.stderr_digest, blobs.len()),
            (Vec::new(), Some(Blob::of(long).digest), 2)
        );
    }

    #[test]
    fn what_shows_the_root_is_not_shared() {
        let folder = tempfile::tempdir().unwrap();
        let action = action(folder.path(), &[("k.ptx", true)]);
        assert!(result_of(&action, "/t/1", b"", b"").is_err(), "an output that must be there");
        let of = |text: &str, out: &str| {
            fs::write(folder.path().join("k.ptx"), text).unwrap();
            result_of(&action, "/t/1", out.as_bytes(), b"").unwrap().is_some()
        };
        assert!(of("/t/2", "/t"));
        assert!(!of(".file \"/t/1/k.ii\"", "") && !of("", "ptxas /t/1/k.ptx, line 1"));
    }
}
