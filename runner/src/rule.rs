//! The dependency file of a call, made from what its preprocessors have written.
use crate::run::Watch;
use crate::voice::Voice;
use cache::Session;
use cache::calls::Product;
use call::Run;
use dependency_rules::{order_of, rule_asked, rule_text};
use machine::jobs::{Ended, Job};
use machine::planned::PlannedCommand;
use machine::proved::list_of;
use machine::rooted::{Rooting, as_written};
use machine::streams::{called, complain, content_of, write_file};
use machine::task::{Done, Step, Task};
use provenance::Witness;
use rattle_std::alloc::{AllocError, Global};
use rattle_std::vec::Collect;
use std::collections::BTreeSet;
use std::path::Path;
use std::sync::Mutex;
use texts::bytes::Bytes;
use texts::words::Words as WordList;

/// The tools whose commands the cache refuses, of all calls that this process makes.
pub type Refusals = Mutex<BTreeSet<String>>;

/// Makes the dependency file, asks the cache, tells of a launcher that refuses a command, and hands what
/// commands say to the call's voice.
pub struct RuleMaker<'a, 'b> {
    /// The call's commands.
    pub commands: &'a [PlannedCommand],
    /// The command that makes it by nvcc, if the line asks for one.
    pub asked: Option<&'a Run>,
    /// The cache's name.
    pub launcher: &'a str,
    /// The tools that the cache has refused.
    pub refusals: &'a Refusals,
    /// What tells what the commands say.
    pub voice: Voice<'b>,
    /// The driver's own cache, if the call uses it.
    pub cache: Option<Session<'a>>,
    /// What the call's tasks are.
    pub tasks: &'a [Task],
    /// How its commands name files of a checkout that products don't name.
    pub rooting: Option<&'a Rooting>,
    /// The dependency file that it has made.
    pub made: Option<Product>,
    /// What observes the call, if statements are asked for.
    pub witness: Option<Witness>,
}

impl RuleMaker<'_, '_> {
    /// What the preprocessors have written, in the order in which nvcc reads it. `None` if nvcc has to make
    /// the rule.
    fn written(&self) -> Option<Vec<Bytes>> {
        let commands: Vec<&PlannedCommand> =
            self.commands.iter().filter(|command| command.preprocesses).collect();
        let words = |command: &&PlannedCommand| {
            Ok(WordList::from_vec(list_of(&command.words)?.into_iter().collect_in(Global)?))
        };
        let words = commands.iter().map(words).collect::<Result<Vec<_>, AllocError>>().ok()?;
        let order = order_of(Global, &words).ok()??;
        let text_of = |&place: &usize| {
            Bytes::copy_of(Global, &content_of(&as_written(Path::new(commands[place].writes.first()?))).ok()?)
                .ok()
        };
        order.as_slice().iter().map(text_of).collect()
    }

    fn try_make(&self) -> Option<Product> {
        let command = self.asked?;
        let words = list_of(command.words()).ok()?;
        let rule = rule_asked(&words)?;
        let text = rule_text(Global, &rule, &self.written()?).ok()??;
        let path = Path::new(command.cwd()).join(rule.file);
        write_file(&path, text.as_slice()).ok()?;
        Some(Product { path, is_new: false, text: text.as_slice().to_vec() })
    }
}

impl Watch for RuleMaker<'_, '_> {
    fn make_rule(&mut self) -> bool {
        self.made = self.try_make();
        self.made.is_some()
    }

    fn wrote(&mut self, task: usize) -> Result<(), String> {
        let command = self.tasks[task].command.map(|number| &self.commands[number]);
        let text = command.filter(|command| command.preprocesses).and_then(|command| command.writes.first());
        let Some((rooting, text)) = self.rooting.zip(text) else { return Ok(()) };
        rooting.change(Path::new(text)).map_err(|error| format!("{text} cannot be changed: {error}"))
    }

    fn refused(&mut self, tool: &str) {
        if self.refusals.lock().is_ok_and(|mut refusals| refusals.insert(tool.to_owned())) {
            complain(&format!("{}: {} doesn't take {tool}, which runs without it", called(), self.launcher));
        }
    }

    fn refuses(&self, tool: &str) -> bool {
        self.refusals.lock().is_ok_and(|refusals| refusals.contains(tool))
    }

    fn front(&self) -> Option<usize> {
        self.voice.front()
    }

    fn hear(&mut self, number: usize, texts: [&[u8]; 2]) {
        self.voice.hear(number, texts);
    }

    fn tell(&mut self, done: &[Done]) {
        self.voice.tell(done);
    }

    fn has_work(&self, done: &[Done]) -> bool {
        self.cache.as_ref().is_some_and(|cache| cache.may_look_ahead(done))
    }

    fn work(&mut self) {
        if let Some(cache) = &mut self.cache {
            cache.look_ahead();
        }
    }

    fn may_begin_early(&mut self, task: usize) -> bool {
        self.cache.as_mut().is_none_or(|cache| cache.may_begin_early(task))
    }

    fn caught_up(&mut self, task: usize) -> bool {
        self.cache.as_mut().is_some_and(|cache| cache.caught_up(task))
    }

    fn observing(&mut self, task: usize, job: &Job) -> Option<Job> {
        match &mut self.witness {
            Some(witness) => witness.observing(task, job),
            None => self.cache.as_mut()?.observing(task, job),
        }
    }

    fn first_step(&mut self, task: usize) -> Step {
        self.cache.as_mut().map_or(Step::Own, |cache| cache.first(task))
    }

    fn next_step(&mut self, task: usize, ended: Ended) -> Step {
        match &mut self.cache {
            Some(cache) => cache.next(task, ended),
            None => Step::Ended(ended),
        }
    }
}

#[cfg(test)]
mod tests {
    use super::*;
    use crate::test_folder::TestFolder;
    use crate::voice::Habits;
    use machine::task::Task;
    use std::fs;

    /// A folder for a test, which goes with it.
    struct Scratch(TestFolder);

    impl Scratch {
        /// A preprocessor that has written this.
        fn wrote(&self, words: &str, name: &str, text: &str) -> PlannedCommand {
            let path = self.0.join(name);
            fs::write(&path, text).unwrap();
            let words = words.split(' ').map(String::from).collect();
            PlannedCommand {
                words,
                preprocesses: true,
                writes: vec![path.to_str().unwrap().into()],
                ..PlannedCommand::default()
            }
        }

        /// What the dependency file gets, if the driver makes it.
        fn made(&self, asked: &str, commands: &[PlannedCommand]) -> Option<String> {
            let _ = fs::remove_file(self.0.join("k.d"));
            let run = Run::new(asked.split(' ').map(String::from).collect(), self.0.to_str().unwrap().into());
            let mut nobody = |_: bool, _: &[u8]| ();
            let voice = Voice::new(&[], Habits::default(), &mut nobody);
            let mut maker = RuleMaker {
                commands,
                asked: Some(&run),
                launcher: "",
                refusals: &Refusals::default(),
                voice,
                cache: None,
                tasks: &[],
                rooting: None,
                made: None,
                witness: None,
            };
            maker.make_rule().then(|| fs::read_to_string(self.0.join("k.d")).unwrap())
        }
    }

    const ASKED: &str = "nvcc -x cu k.cu -M -MF k.d -MT k.o";

    #[test]
    fn the_rule_is_made_of_what_was_written() {
        let scratch = Scratch(TestFolder::new());
        let host =
            scratch.wrote("-E -D__CUDACC_VER_MAJOR__=13 k.cu", "host.ii", "# 0 \"k.cu\"\n# 1 \"host.h\" 1\n");
        let device = scratch.wrote(
            "-D__CUDA_ARCH__=800 -E -D__CUDACC_VER_MAJOR__=13 k.cu",
            "80.ii",
            "# 0 \"k.cu\"\n# 1 \"a b.h\" 1\n",
        );
        assert_eq!(
            scratch.made(ASKED, &[host.clone(), device.clone()]).as_deref(),
            Some("k.o : k.cu \\\n    a\\ b.h \\\n    host.h\n")
        );
        let of_system = scratch.wrote(
            "-E -D__CUDACC_VER_MAJOR__=13 k.cu",
            "own.ii",
            "# 0 \"k.cu\"\n# 1 \"own.h\" 1\n# 1 \"host.h\" 1 3\n",
        );
        let own = scratch.made("nvcc -x cu k.cu -MM -MP -MF k.d -MT k.o", &[of_system, device.clone()]);
        assert_eq!(own.as_deref(), Some("k.o : k.cu \\\n    a\\ b.h \\\n    own.h\n\na\\ b.h:\n\nown.h:\n"));
        assert_eq!(
            scratch.made("nvcc -x cu k.cu -MD -MF k.d -MT k.o", &[host.clone(), device]),
            None,
            "other words"
        );
        assert_eq!(scratch.made(ASKED, &[host]), None, "no command for a device");
    }

    #[test]
    fn what_a_task_prints_is_told() {
        let mut said = Vec::new();
        let mut say = |is_error: bool, text: &[u8]| said.push((is_error, text.to_vec()));
        let refusals = Refusals::default();
        let voice = Voice::new(&[Task::default()], Habits::default(), &mut say);
        let mut maker = RuleMaker {
            commands: &[],
            asked: None,
            launcher: "",
            refusals: &refusals,
            voice,
            cache: None,
            tasks: &[],
            rooting: None,
            made: None,
            witness: None,
        };
        assert_eq!(maker.front(), Some(0));
        maker.hear(0, [b"out", b"warns"]);
        assert_eq!(said, [(false, b"out".to_vec()), (true, b"warns".to_vec())]);
    }

    #[test]
    fn without_all_texts_nvcc_makes_it() {
        let scratch = Scratch(TestFolder::new());
        let host =
            scratch.wrote("-E -D__CUDACC_VER_MAJOR__=13 k.cu", "host.ii", "# 0 \"k.cu\"\n# 1 \"a.h\" 1\n");
        let device = scratch.wrote("-D__CUDA_ARCH__=800 -E -D__CUDACC_VER_MAJOR__=13 k.cu", "80.ii", "");
        assert_eq!(scratch.made(ASKED, &[host.clone(), device.clone()]), None, "an empty text");
        fs::remove_file(&device.writes[0]).unwrap();
        assert_eq!(scratch.made(ASKED, &[host, device]), None, "a text that is gone");
    }
}
