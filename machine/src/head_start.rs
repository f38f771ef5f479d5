//! What a command reads that begins before a file is there. The proved crate `call_tasks` says which commands
//! may, and with which words.
//!
//! cicc reads cudafe++'s module id once it has parsed its input, so it may parse while cudafe++ runs: the
//! kernel has it wait for the file, since it takes no pipe. The last host compile reads cicc's stub file at
//! the end of its input, so it may parse beside cicc. It gets the file through a pipe, however long that
//! takes. A preprocessor for a device needs the host's only by the plan's rule that a missing header shows
//! once, and a call prints nothing behind its first failure anyway.
use crate::jobs::Job;
use crate::streams::{content_of, replace_file};
use early_starts::stub_text;
use rattle_std::alloc::Global;
use std::io;
use std::path::PathBuf;

/// How a task waits for the file that it reads late.
#[derive(Clone, Copy, PartialEq, Eq, Debug, Default)]
pub enum Wait {
    /// It opens the file by a name of its own, and the kernel lets it go on.
    #[default]
    Opening,
    /// It reads a pipe in the file's place. It always reads the file by this name, which the file's own line
    /// marker then has.
    Reading,
}

impl From<call_tasks::Wait> for Wait {
    fn from(wait: call_tasks::Wait) -> Wait {
        match wait {
            call_tasks::Wait::Opening => Wait::Opening,
            call_tasks::Wait::Reading => Wait::Reading,
        }
    }
}

/// How a task may begin before one that it needs has ended.
#[derive(Clone, PartialEq, Eq, Debug, Default)]
pub struct HeadStart {
    /// The tasks that have to end before. All others that the task needs have to run by then.
    pub needs: Vec<usize>,
    /// The file that it reads late.
    pub file: PathBuf,
    /// The name by which it reads the file then.
    pub withheld: PathBuf,
    /// The task's job with this name.
    pub job: Job,
    /// How it waits for the file.
    pub wait: Wait,
}

impl HeadStart {
    /// What the task is to read.
    /// An error if the file can't be read, or its name isn't UTF-8.
    pub fn content(&self) -> io::Result<Vec<u8>> {
        let content = content_of(&self.file)?;
        if self.wait == Wait::Opening {
            return Ok(content);
        }
        let (Some(own), Some(other)) = (self.file.to_str(), self.withheld.to_str()) else {
            return Err(io::ErrorKind::InvalidData.into());
        };
        let text = stub_text(Global, own, other, &content).map_err(|_| io::ErrorKind::OutOfMemory)?;
        Ok(text.as_slice().to_vec())
    }

    /// Writes what the task reads, if it reads it by the other name though all that it needs has ended.
    /// Errors: why nvcc makes the call.
    pub fn write(&self) -> Result<(), String> {
        let written = match self.wait {
            Wait::Opening => Ok(()),
            Wait::Reading => self.content().and_then(|content| replace_file(&self.withheld, &content)),
        };
        written.map_err(|_| "a stub file is missing, or there is no room for it".into())
    }
}

#[cfg(test)]
mod tests {
    use super::*;
    use crate::test_folder::TestFolder;
    use std::fs;
    use std::path::Path;

    #[test]
    fn a_stub_file_has_the_name_by_which_it_is_read() {
        let folder = TestFolder::new();
        let [file, withheld] = ["own.c", "other.c"].map(|name| folder.join(name));
        let text = |path: &Path| {
            format!("#define A\n# 4 \"k.cu\"\n# 1 \"{0}\"\nx\n# 2 \"k.cu\"\n# 1 \"{0}\"\ny\n", path.display())
        };
        fs::write(&file, text(&file)).unwrap();
        let mut start = HeadStart {
            file: file.clone(),
            withheld: withheld.clone(),
            wait: Wait::Reading,
            ..HeadStart::default()
        };
        assert_eq!(start.content().unwrap(), text(&withheld).into_bytes());
        start.write().unwrap();
        assert_eq!(fs::read_to_string(&withheld).unwrap(), text(&withheld));
        start.wait = Wait::Opening;
        assert_eq!(start.content().unwrap(), text(&file).into_bytes());
        fs::remove_file(&withheld).unwrap();
        start.write().unwrap();
        assert!(!withheld.exists(), "a task with a name of its own for the file needs no other");
        fs::remove_file(&file).unwrap();
        start.wait = Wait::Reading;
        assert!(start.content().is_err() && start.write().is_err());
    }
}
