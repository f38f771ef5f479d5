//! Records of calls as they are found on disk.
use runner::records::{RecordedCall, SUFFIX, TEXTS};
use serde::Deserialize;
use std::collections::BTreeMap;
use std::fs;
use std::path::{Path, PathBuf};

/// A call, and the folder in which its record is.
#[derive(Clone, PartialEq, Debug)]
pub struct Found {
    /// The folder.
    pub folder: PathBuf,
    /// The call.
    pub call: RecordedCall,
}

impl Found {
    /// The text with a digest, if it was kept.
    pub fn text(&self, digest: &str) -> Option<Vec<u8>> {
        let is_name = !digest.is_empty() && digest.bytes().all(|byte| byte.is_ascii_hexdigit());
        if is_name { fs::read(self.folder.join(TEXTS).join(digest)).ok() } else { None }
    }

    /// A name as it is below the call's own folder, if it is there.
    pub fn short<'a>(&self, name: &'a str) -> &'a str {
        let below = name.strip_prefix(&self.call.folder).and_then(|rest| rest.strip_prefix('/'));
        below.unwrap_or(name)
    }

    /// The names of its products, or of its words if it has none.
    pub fn name(&self) -> String {
        let names: Vec<&str> = self.call.products.iter().map(|(name, _)| self.short(name)).collect();
        if names.is_empty() { self.call.words.join(" ") } else { names.join(" ") }
    }
}

fn record(path: &Path) -> Result<Found, String> {
    let error = |what: String| format!("cannot read {}: {what}", path.display());
    let text = fs::read(path).map_err(|reason| error(reason.to_string()))?;
    let call =
        serde_json::from_slice(&text).map_err(|_| error("it is no record of ZIGRUNK_RECORDS".into()))?;
    Ok(Found { folder: path.parent().unwrap_or(Path::new("")).to_owned(), call })
}

/// A line of a log, as far as it counts here.
#[derive(Deserialize)]
struct Line {
    record: PathBuf,
}

/// The record that a line of a log names, by the log's path, a colon and the line's number. `None` if the
/// path isn't such.
fn of_line(path: &Path) -> Option<Result<Found, String>> {
    let (log, number) = path.to_str()?.rsplit_once(':')?;
    let place: usize = number.parse::<usize>().ok()?.checked_sub(1)?;
    let text = fs::read(log).ok()?;
    let line = text.split(|&byte| byte == b'\n').nth(place).unwrap_or_default();
    let line = serde_json::from_slice::<Line>(line);
    Some(
        line.map_err(|_| format!("line {number} of {log} names no record"))
            .and_then(|line| record(&line.record)),
    )
}

/// The records that a path names: one, that of a line of a log as in `log:3`, or those of a folder, by the
/// names of their products. Of equal names the latest counts.
/// Errors: what can't be read, or that a folder has none.
pub fn records(path: &Path) -> Result<BTreeMap<String, Found>, String> {
    if !path.is_dir() {
        let found = of_line(path).filter(|_| !path.exists()).unwrap_or_else(|| record(path))?;
        return Ok(BTreeMap::from([(found.name(), found)]));
    }
    let mut all = BTreeMap::new();
    let files = fs::read_dir(path).map_err(|error| format!("cannot read {}: {error}", path.display()))?;
    let is_record = |file: &PathBuf| file.to_string_lossy().ends_with(SUFFIX);
    for file in files.flatten().map(|entry| entry.path()).filter(is_record) {
        let found = record(&file)?;
        let is_older = |other: &Found| other.call.time < found.call.time;
        if all.get(&found.name()).is_none_or(is_older) {
            all.insert(found.name(), found);
        }
    }
    if all.is_empty() { Err(format!("{} has no record of ZIGRUNK_RECORDS", path.display())) } else { Ok(all) }
}

#[cfg(test)]
mod tests {
    use super::*;
    use unix::test_folder::TestFolder;

    fn call(time: f64, product: &str) -> RecordedCall {
        let products = vec![(product.to_owned(), "1".to_owned())];
        RecordedCall { time, folder: "/w".into(), products, ..RecordedCall::default() }
    }

    #[test]
    fn records_are_found_by_their_path_their_folder_and_a_line_of_a_log() {
        let room = TestFolder::new();
        let write = |name: &str, call: &RecordedCall| {
            fs::write(room.join(name), serde_json::to_string(call).unwrap()).unwrap();
        };
        let error = |path: PathBuf| records(&path).unwrap_err();
        assert!(error(room.to_path_buf()).ends_with("has no record of ZIGRUNK_RECORDS"));
        write("a.json", &call(1.0, "/w/k.o"));
        write("b.json", &call(3.0, "k.o"));
        write("c.json", &call(2.0, "k.o"));
        write("d.json", &call(1.0, "j.o"));
        let names = |path: PathBuf| {
            records(&path)
                .unwrap()
                .into_iter()
                .map(|(name, found)| (name, found.call.time))
                .collect::<Vec<_>>()
        };
        assert_eq!(
            names(room.to_path_buf()),
            [("j.o".to_owned(), 1.0), ("k.o".into(), 3.0)],
            "the latest of a name"
        );
        assert_eq!(names(room.join("a.json")), [("k.o".to_owned(), 1.0)]);
        let log = format!("{{\"hint\":\"x\"}}\n{{\"record\":\"{}\"}}\n", room.join("d.json").display());
        fs::write(room.join("log"), log).unwrap();
        assert_eq!(names(room.join("log:2")), [("j.o".to_owned(), 1.0)]);
        for place in ["log:1", "log:9"] {
            assert!(error(room.join(place)).ends_with("names no record"), "{place}");
        }
        for place in ["log:0", "log:x", "missing:1", "missing"] {
            assert!(error(room.join(place)).starts_with("cannot read "), "{place}");
        }
        assert!(error(room.join("log")).ends_with("it is no record of ZIGRUNK_RECORDS"));
        fs::write(room.join("e.json"), "{}").unwrap();
        assert!(error(room.to_path_buf()).ends_with("it is no record of ZIGRUNK_RECORDS"), "one of a folder");
    }

    #[test]
    fn texts_are_found_by_digests_alone() {
        let room = TestFolder::new();
        fs::create_dir(room.join(TEXTS)).unwrap();
        fs::write(room.join(TEXTS).join("1a"), "text").unwrap();
        fs::write(room.join("secret"), "").unwrap();
        let found = Found { folder: room.to_path_buf(), call: call(1.0, "/w/k.o") };
        assert_eq!(found.text("1a").as_deref(), Some(&b"text"[..]));
        assert_eq!([found.text(""), found.text("2"), found.text("../secret")], [None, None, None]);
        assert_eq!(
            [found.short("/w/a.h"), found.short("/wa.h"), found.short("a.h")],
            ["a.h", "/wa.h", "a.h"]
        );
    }
}
