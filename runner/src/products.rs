//! The files of a call that stay.
use machine::folder::OWN;
use machine::streams::{content_of, write_file};
use std::fs;
use std::path::Path;
use std::time::SystemTime;

/// The text of a stub file with the name that it is kept by. In front of unnamed and static kernels cicc
/// names it as it is found.
fn with_kept_name(text: &str, stub: &Path) -> Option<String> {
    const MARKER: &str = "# 1 ";
    let name = stub.to_str().filter(|name| name.ends_with(".cudafe1.stub.c"))?;
    let found = format!("\"{name}\"");
    let end = format!("{}\"", stub.file_name()?.to_str()?);
    let mut names = text.lines().filter_map(|line| line.strip_prefix(MARKER));
    let kept = names.find(|name| name.ends_with(&end) && *name != found)?;
    text.contains(&found).then(|| text.replace(&found, kept))
}

/// Moves generated files into the keep directory. A product of this call that has the name of one is newer,
/// and stays.
pub fn keep(tmp: &Path, keep_dir: &Path, begun: SystemTime) {
    for entry in fs::read_dir(tmp).into_iter().flatten().flatten() {
        let (from, to) = (entry.path(), keep_dir.join(entry.file_name()));
        let is_newer = fs::metadata(&to).and_then(|file| file.modified()).is_ok_and(|time| time > begun);
        if entry.file_name() == OWN || is_newer {
            continue;
        }
        if let Some(text) = content_of(&from)
            .ok()
            .and_then(|text| String::from_utf8(text).ok())
            .and_then(|text| with_kept_name(&text, &from))
        {
            let _ = write_file(&from, text);
        }
        if fs::rename(&from, &to).is_ok() {
            continue;
        }
        // Another disk has that directory, so it can't be renamed.
        let _ = fs::remove_file(&to);
        let _ = fs::copy(&from, &to);
    }
}

/// What to say of a command that failed without a message: on a full disk its message is lost.
pub fn lack_of_room(temporary: &Path) -> String {
    let path = temporary.join(format!(".zigrunk-room.{}", std::process::id()));
    let has_room = write_file(&path, vec![0; 65536]).is_ok();
    let _ = fs::remove_file(&path);
    if has_room { String::new() } else { format!(": there is no room in {}", temporary.display()) }
}

#[cfg(test)]
mod tests {
    use super::*;
    use crate::test_folder::TestFolder;
    use std::time::Duration;

    /// A folder for a test, which goes with it.
    struct Scratch(TestFolder);

    impl Scratch {
        fn new() -> Scratch {
            let path = TestFolder::new();
            fs::create_dir_all(path.join("tmp").join(OWN)).unwrap();
            fs::create_dir_all(path.join("keep")).unwrap();
            Scratch(path)
        }

        fn write(&self, name: &str, text: &str, time: SystemTime) {
            fs::write(self.0.join(name), text).unwrap();
            fs::File::options().write(true).open(self.0.join(name)).unwrap().set_modified(time).unwrap();
        }

        fn has(&self, name: &str) -> Option<String> {
            fs::read_to_string(self.0.join(name)).ok()
        }
    }

    #[test]
    fn generated_files_are_kept_unless_a_product_has_their_name() {
        let scratch = Scratch::new();
        let begun = SystemTime::now();
        let [before, later] = [begun - Duration::from_secs(9), begun + Duration::from_secs(9)];
        for name in ["new", "old", "product"] {
            scratch.write(&format!("tmp/{name}"), "generated", later);
        }
        scratch.write("keep/old", "of another call", before);
        scratch.write("keep/product", "of this call", later);
        keep(&scratch.0.join("tmp"), &scratch.0.join("keep"), begun);
        let kept = ["new", "old", "product"].map(|name| scratch.has(&format!("keep/{name}")));
        assert_eq!(
            kept.each_ref().map(Option::as_deref),
            [Some("generated"), Some("generated"), Some("of this call")]
        );
        assert_eq!(
            (scratch.has("tmp/new"), scratch.has("tmp/product").as_deref()),
            (None, Some("generated"))
        );
        assert!(scratch.0.join("tmp").join(OWN).is_dir() && !scratch.0.join("keep").join(OWN).exists());
    }

    #[test]
    fn a_stub_file_has_the_name_that_it_is_kept_by() {
        let stub = Path::new("/t/k.cudafe1.stub.c");
        let text = "# 1 \"k.cu\"\n# 1 \"kd/k.cudafe1.stub.c\"\nf();\n# 1 \"/t/k.cudafe1.stub.c\"\ng();\n";
        assert_eq!(with_kept_name(text, stub), Some(text.replace("/t/", "kd/")));
        assert_eq!(with_kept_name(text, Path::new("/t/k.cudafe1.cpp")), None);
        assert_eq!(with_kept_name("# 1 \"k.cu\"\n# 1 \"k.cudafe1.stub.c\"\n", stub), None);
        assert_eq!(with_kept_name("# 1 \"/t/k.cudafe1.stub.c\"\n", stub), None);
    }

    #[test]
    fn files_are_kept_on_another_disk() {
        let (scratch, shared) = (Scratch::new(), Path::new("/dev/shm"));
        let name = format!("products-{}", std::process::id());
        scratch.write(&format!("tmp/{name}"), "generated", SystemTime::now());
        fs::write(shared.join(&name), "of another call, and longer").unwrap();
        keep(&scratch.0.join("tmp"), shared, SystemTime::now() + Duration::from_secs(9));
        let kept = fs::read_to_string(shared.join(&name));
        fs::remove_file(shared.join(&name)).unwrap();
        assert_eq!(kept.unwrap(), "generated");
    }

    #[test]
    fn a_link_in_the_keep_directory_is_replaced() {
        let (scratch, shared) = (Scratch::new(), Path::new("/dev/shm"));
        let name = format!("products-link-{}", std::process::id());
        scratch.write(&format!("tmp/{name}"), "generated", SystemTime::now());
        scratch.write("mine", "mine", SystemTime::now());
        std::os::unix::fs::symlink(scratch.0.join("mine"), shared.join(&name)).unwrap();
        keep(&scratch.0.join("tmp"), shared, SystemTime::now() + Duration::from_secs(9));
        let kept = fs::read_to_string(shared.join(&name));
        fs::remove_file(shared.join(&name)).unwrap();
        assert_eq!((kept.unwrap().as_str(), scratch.has("mine").as_deref()), ("generated", Some("mine")));
    }

    #[test]
    fn a_folder_has_room_or_not() {
        let scratch = Scratch::new();
        assert_eq!(lack_of_room(&scratch.0), "");
        assert_eq!(fs::read_dir(&scratch.0).unwrap().count(), 2, "nothing stays");
        assert_eq!(lack_of_room(Path::new("/missing")), ": there is no room in /missing");
    }
}
