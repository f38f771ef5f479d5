//! A call whose files below a checkout's folder are named as in any other checkout.
use crate::folder::OWN;
use crate::proved::{held, text};
use crate::settings::AskedRoot;
use crate::streams::{content_of, write_file};
use call::{Error, Reason};
use compilers::plans::{DroppedCommands, Groups, Plan};
use rattle_std::alloc::{AllocError, Global};
use rattle_std::vec::Vec as List;
use rooted_commands::{Root, own_text, rooted_command, rooted_text};
use std::fs;
use std::io::{self, ErrorKind};
use std::path::{Path, PathBuf};
use texts::words::Words;

/// Where a text is that a preprocessor has written: under a root its file has other names in its line
/// markers, and the text as it was is beside it.
pub fn as_written(file: &Path) -> PathBuf {
    let kept = kept_place(file).filter(|kept| kept.exists());
    kept.unwrap_or_else(|| file.to_owned())
}

fn kept_place(file: &Path) -> Option<PathBuf> {
    Some(file.parent()?.join(OWN).join(file.file_name()?))
}

/// The names of a checkout's folder: the user's, and the one without links. The user's is last, too, if the
/// other begins it: gcc compares bytes, and takes the last name that begins a path.
pub fn names_of(folder: &str) -> Vec<String> {
    let real = fs::canonicalize(folder).ok().and_then(|real| real.into_os_string().into_string().ok());
    let other = real.filter(|real| real != folder);
    let again = other.as_ref().filter(|real| folder.starts_with(real.as_str())).map(|_| folder.to_owned());
    [Some(folder.to_owned()), other, again].into_iter().flatten().collect()
}

/// How a call names files below a checkout's folder.
pub struct Rooting {
    root: Root,
}

impl Rooting {
    /// That of a call in this directory, whose files go to `tmp`.
    /// Errors: memory runs out, or a host compiler can't be told of `tmp`: clang cuts a map at its first `=`.
    pub fn of(asked: &AskedRoot, cwd: &str, tmp: &str) -> Result<Rooting, Error> {
        if tmp.contains('=') {
            return Err(Error::to_nvcc(Reason::Machine(
                "ZIGRUNK_ROOT cannot be used: TMPDIR has a =".into(),
            )));
        }
        let mut folders = Words::new(Global);
        for folder in names_of(&asked.folder) {
            folders.push(text(&folder)?)?;
        }
        let root = Root { folders, root: held(&asked.name)?, cwd: held(cwd)?, tmp: held(tmp)? };
        Ok(Rooting { root })
    }

    /// A plan whose commands name files so.
    /// An error if memory runs out.
    pub(crate) fn plan(&self, plan: &Plan) -> Result<Plan, AllocError> {
        let mut groups = List::with_capacity(Global, plan.groups.as_slice().len())?;
        for commands in plan.groups.as_slice() {
            let mut group = List::with_capacity(Global, commands.as_slice().len())?;
            for command in commands.as_slice() {
                group.push(rooted_command(Global, &self.root, command)?)?;
            }
            groups.push(group)?;
        }
        let dropped = DroppedCommands::from_vec(List::new(Global));
        Ok(Plan { groups: Groups::from_vec(groups), dropped })
    }

    /// Has a preprocessor's text name files so, and keeps it as it was beside it.
    /// Errors: those of the disk, and `OutOfMemory`.
    pub fn change(&self, file: &Path) -> io::Result<()> {
        let text = content_of(file)?;
        let rooted = rooted_text(Global, &self.root, &text).map_err(|_| ErrorKind::OutOfMemory)?;
        write_file(&kept_place(file).ok_or(ErrorKind::InvalidInput)?, &text)?;
        write_file(file, rooted.as_slice())
    }

    /// What a command said, with the checkout's own names.
    pub fn own(&self, said: &[u8]) -> Vec<u8> {
        own_text(Global, &self.root, said).map_or_else(|_| said.to_vec(), |text| text.as_slice().to_vec())
    }
}

#[cfg(test)]
mod tests {
    use super::*;
    use crate::test_folder::TestFolder;
    use std::os::unix::fs::symlink;

    fn rooting(folder: &Path, tmp: &Path) -> Rooting {
        let asked = AskedRoot { folder: folder.to_str().unwrap().into(), name: "/src".into() };
        Rooting::of(&asked, &format!("{}/build", folder.display()), tmp.to_str().unwrap()).unwrap()
    }

    #[test]
    fn a_text_is_changed_and_kept() {
        let room = TestFolder::new();
        let (top, tmp) = (room.join("top"), room.join("tmp"));
        fs::create_dir_all(tmp.join(OWN)).unwrap();
        fs::create_dir(&top).unwrap();
        let file = tmp.join("k.cpp1.ii");
        let text = format!("# 1 \"{}/a.h\" 1\nint a;\n# 1 \"b.h\" 1\n# 1 \"/usr/c.h\" 1 3\n", top.display());
        fs::write(&file, &text).unwrap();
        assert_eq!(as_written(&file), file);
        rooting(&top, &tmp).change(&file).unwrap();
        let wanted = "# 1 \"/src/a.h\" 1\nint a;\n# 1 \"/src/build/b.h\" 1\n# 1 \"/usr/c.h\" 1 3\n";
        assert_eq!(fs::read_to_string(&file).unwrap(), wanted);
        assert_eq!(fs::read_to_string(as_written(&file)).unwrap(), text);
        assert!(rooting(&top, &tmp).change(&tmp.join("missing.ii")).is_err());
    }

    #[test]
    fn messages_have_the_folders_own_names() {
        let room = TestFolder::new();
        let own = rooting(&room.join("top"), &room.join("tmp"))
            .own(b"/src/a.cu(3): error in /src/b, not /source\n");
        let top = room.join("top");
        assert_eq!(
            String::from_utf8(own).unwrap(),
            format!("{0}/a.cu(3): error in {0}/b, not /source\n", top.display())
        );
    }

    #[test]
    fn a_folder_has_the_name_that_it_has_without_links_too() {
        let room = TestFolder::new();
        fs::create_dir_all(room.join("real/top")).unwrap();
        symlink("real", room.join("link")).unwrap();
        let tmp = room.join("tmp");
        fs::create_dir_all(tmp.join(OWN)).unwrap();
        let file = tmp.join("k.ii");
        fs::write(&file, format!("# 1 \"{0}/link/top/a\"\n# 1 \"{0}/real/top/a\"\n", room.display()))
            .unwrap();
        rooting(&room.join("link/top"), &tmp).change(&file).unwrap();
        assert_eq!(fs::read_to_string(&file).unwrap(), "# 1 \"/src/a\"\n# 1 \"/src/a\"\n");
    }

    #[test]
    fn a_name_that_the_other_begins_is_last() {
        let room = TestFolder::new();
        fs::create_dir(room.join("top")).unwrap();
        for link in ["top-latest", "to"] {
            symlink("top", room.join(link)).unwrap();
        }
        let path = |name: &str| room.join(name).display().to_string();
        let cases: [(&str, &[&str]); 3] =
            [("top", &["top"]), ("top-latest", &["top-latest", "top", "top-latest"]), ("to", &["to", "top"])];
        for (name, names) in cases {
            assert_eq!(names_of(&path(name)), names.iter().map(|name| path(name)).collect::<Vec<_>>());
        }
    }

    #[test]
    fn gcc_cannot_be_told_of_every_folder() {
        let asked = AskedRoot { folder: "/w".into(), name: "/src".into() };
        assert!(Rooting::of(&asked, "/w", "/t/a=b").is_err());
    }
}
