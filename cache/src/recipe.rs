//! What the cache has to know of a command.
use crate::marked;
use crate::tool::Kind;
use crate::words;
use command_keys::{CountedWord, NamedFiles, Role as WordRole, counted_text};
use machine::folder::OWN;
use machine::jobs::Job;
use machine::planned::PlannedCommand;
use machine::settings::{own_variable, own_variables};
use machine::task::included;
use rattle_std::alloc::Global;
use std::borrow::Cow;
use std::collections::{BTreeMap, BTreeSet};
use std::ffi::{OsStr, OsString};
use std::os::unix::ffi::OsStrExt;
use std::path::{Path, PathBuf};

/// Variables by which gcc writes or compares more than its words say.
const ODD_VARIABLES: [&str; 3] = ["DEPENDENCIES_OUTPUT", "GCC_COMPARE_DEBUG", "SUNPRO_DEPENDENCIES"];

/// What a text is that a command reads.
#[derive(Clone, Copy, PartialEq, Eq, Debug)]
pub enum Role {
    /// A preprocessor wrote it.
    Preprocessed,
    /// A preprocessor read it, and what it wrote is another text of the command.
    Source,
    /// The command reads it once it has parsed the others, and may begin before it is there.
    Late,
    Other,
}

/// A file that a command writes.
#[derive(Clone, PartialEq, Eq, Debug)]
pub struct Output {
    pub path: PathBuf,
    /// Whether the command may leave it out.
    pub is_optional: bool,
    /// Where the command writes it. A product is written to the call's directory first: there no other call
    /// can put its own in its place before the cache has read it.
    pub written_to: PathBuf,
}

/// A command that the cache may serve.
#[derive(Clone, PartialEq, Eq, Debug)]
pub struct Recipe {
    pub kind: Kind,
    /// The words that count in its key.
    pub counted: Vec<String>,
    /// The command, with each product in the call's directory.
    pub job: Job,
    pub reads: Vec<PathBuf>,
    pub outputs: Vec<Output>,
    /// The directory whose path doesn't count; empty if names of files count.
    pub directory: String,
    /// Whether lines and blanks of what it reads may reach a product of the call.
    pub lines_count: bool,
    /// For a host compiler, unless it only assembles: the process that preprocesses what it reads, and the
    /// file for that.
    pub question: Option<(Job, PathBuf)>,
    /// Whether it runs the assembler.
    pub assembles: bool,
    /// What cudafe++'s files begin with, as `k.compute_90.cudafe1`, if that doesn't count: it depends on the
    /// list of targets.
    pub stem: Option<String>,
    /// Whether it's a compile of a source that no tool has written.
    pub has_own_source: bool,
}

/// The path of a file that messages name.
pub fn path_of(recipe: &Recipe, name: &[u8]) -> PathBuf {
    Path::new(&recipe.job.folder).join(OsStr::from_bytes(name))
}

/// The outputs of a command, by its record.
fn outputs(command: &PlannedCommand, number: usize, tmp: &str) -> Vec<Output> {
    let certain = command.writes.iter().map(|path| (path, false));
    let all = certain.chain(command.may_write.iter().map(|path| (path, true)));
    let output = |(place, (path, is_optional)): (usize, (&String, bool))| {
        let path = PathBuf::from(path);
        let is_product = !path.starts_with(tmp);
        let written_to =
            if is_product { format!("{tmp}/{OWN}/product.{number}.{place}").into() } else { path.clone() };
        Output { path, is_optional, written_to }
    };
    all.enumerate().map(output).collect()
}

/// The words of a command as they count, and as it runs. `None` if a word isn't known, or names a file that
/// its record doesn't.
fn words_of(
    kind: Kind,
    words: &[String],
    folder: &Path,
    reads: &[PathBuf],
    outputs: &[Output],
    counts_all: bool,
) -> Option<[Vec<String>; 2]> {
    let reads: Vec<&[u8]> = reads.iter().map(|path| path.as_os_str().as_bytes()).collect();
    let moved: Vec<&Output> = outputs.iter().filter(|output| output.written_to != output.path).collect();
    let products: Vec<&[u8]> = moved.iter().map(|output| output.path.as_os_str().as_bytes()).collect();
    let files = NamedFiles { cwd: folder.as_os_str().as_bytes(), reads: &reads, products: &products };
    words::with_counted(kind, words, &files, |all| {
        let seen = all.iter().filter(|word| counts_all || word.read.role != WordRole::Preprocessor);
        let counted: Option<Vec<String>> = seen.map(text_in_key).collect();
        let run = all.iter().map(|word| text_that_runs(word, &moved)).collect();
        let names_all = (0..moved.len()).all(|number| all.iter().any(|word| word.product == Some(number)));
        Some([counted.filter(|_| names_all)?, run])
    })?
}

/// A word as its command's key has it.
fn text_in_key(word: &CountedWord<'_>) -> Option<String> {
    Some(words::text_of(counted_text(Global, word).ok()?.as_slice()))
}

/// A word as its command runs: with each product in the call's directory.
fn text_that_runs(word: &CountedWord<'_>, products: &[&Output]) -> String {
    let text = words::text_of(word.read.word);
    let Some(product) = word.product.map(|number| products[number]) else { return text };
    let front = text.strip_suffix(&words::text_of(word.read.name)).unwrap_or_default();
    format!("{front}{}", product.written_to.to_string_lossy())
}

/// What cudafe++'s files begin with, by the words of a command that writes them, or assembler text of one.
fn stem_of(kind: Kind, words: &[String]) -> Option<&str> {
    let file = match kind {
        Kind::CudaFe => words.windows(2).find(|pair| pair[0] == "--gen_c_file_name").map(|pair| &pair[1]),
        Kind::Host if words.iter().any(|word| word == "-S") => {
            words.iter().find(|word| !word.starts_with('-') && word.ends_with(".cudafe1.cpp"))
        }
        _ => None,
    };
    Path::new(file?).file_name()?.to_str()?.strip_suffix(".cpp").filter(|stem| stem.ends_with(".cudafe1"))
}

/// The process that preprocesses what a compile reads, and says nothing else.
fn question(job: &Job, file: &str) -> Job {
    let mut words = job.words.clone();
    for place in 0..words.len() {
        match words[place].as_str() {
            "-c" | "-S" => "-E".clone_into(&mut words[place]),
            "-o" => file.clone_into(&mut words[place + 1]),
            _ => {}
        }
    }
    Job { words, ..job.clone() }
}

impl Recipe {
    /// Whether it is a host compiler that only assembles.
    pub fn is_assembly(&self) -> bool {
        self.kind == Kind::Host && self.question.is_none()
    }

    /// That of a command, which runs as a job; `number` is its own. `None` if the cache doesn't know all that
    /// the command reads and writes.
    pub fn of(command: &PlannedCommand, job: &Job, number: usize, tmp: &str) -> Option<Recipe> {
        let (program, words) = job.words.split_first()?;
        let kind = Kind::of(program)?;
        let is_host = kind == Kind::Host;
        let is_odd = ODD_VARIABLES.iter().any(|name| own_variable(name).is_some());
        let is_assembly = is_host && words::is_assembly(words);
        let is_known = if is_host { is_assembly || words::is_compile(words) } else { command.complete };
        if command.preprocesses || is_odd || !is_known {
            return None;
        }
        let names_count = words::names_count(kind, words);
        let reads: Vec<PathBuf> = command.reads.iter().map(PathBuf::from).collect();
        let outputs = outputs(command, number, tmp);
        // To look up what fatbinary makes for an object takes longer than to make it.
        let is_quick =
            kind == Kind::Fatbinary && outputs.iter().all(|output| output.written_to == output.path);
        if reads.is_empty() || outputs.is_empty() || is_quick {
            return None;
        }
        let [counted, run] = words_of(kind, words, Path::new(&job.folder), &reads, &outputs, names_count)?;
        let stem = stem_of(kind, words).filter(|_| !names_count).map(String::from);
        let job = Job { words: [std::slice::from_ref(program), &run].concat(), ..job.clone() };
        let file = format!("{tmp}/{OWN}/cache.{number}.ii");
        let has_own_source = is_host && !is_assembly && !reads.iter().any(|file| file.starts_with(tmp));
        let question = (is_host && !is_assembly).then(|| (question(&job, &file), file.into()));
        let assembles = run.iter().any(|word| word == "-c");
        let directory = if names_count { String::new() } else { tmp.to_owned() };
        let lines_count = names_count || has_own_source;
        Some(Recipe {
            kind,
            counted,
            job,
            reads,
            outputs,
            directory,
            lines_count,
            question,
            assembles,
            stem,
            has_own_source,
        })
    }

    /// The directory whose path doesn't count in texts that the command reads. fatbinary packs them, so
    /// nobody sees whether its product has it.
    pub fn directory_in_texts(&self) -> &[u8] {
        if self.kind == Kind::Fatbinary { b"" } else { self.directory.as_bytes() }
    }

    /// What the text of a file is that the command reads.
    pub fn role_of(&self, file: &Path) -> Role {
        match file.extension().and_then(OsStr::to_str) {
            _ if self.question.is_some() => Role::Source,
            Some("ii") => Role::Preprocessed,
            Some("module_id") if self.kind == Kind::Cicc => Role::Late,
            _ => Role::Other,
        }
    }

    /// Whether its key has a file that it has read below the call's directory, seen from there. An assembler
    /// includes one that is made of another, and what a command reads late has another name until it's there.
    pub fn knows(&self, file: &Path, tmp: &str) -> bool {
        let whole = Path::new(tmp).join(file);
        let is_late = self.kind == Kind::Cicc && file.with_extension("") == Path::new(OWN).join("module_id");
        is_late || self.reads.contains(&whole) || self.is_assembly() && whole == Path::new(&included(tmp))
    }

    /// A text with a mark in place of the name that doesn't count. `None` if it has such marks itself.
    pub fn unnamed<'a>(&self, text: &'a [u8]) -> Option<Cow<'a, [u8]>> {
        self.stem.as_ref().map_or(Some(Cow::Borrowed(text)), |stem| marked::unnamed(text, stem.as_bytes()))
    }

    /// The text that has the name in place of each mark.
    pub fn named(&self, text: Vec<u8>) -> Vec<u8> {
        match &self.stem {
            Some(stem) => marked::named(&text, stem.as_bytes()),
            None => text,
        }
    }

    /// The tool's path.
    pub fn program(&self) -> PathBuf {
        Path::new(&self.job.folder).join(self.job.words.first().map(String::as_str).unwrap_or_default())
    }

    pub fn has_products(&self) -> bool {
        self.outputs.iter().any(|output| output.written_to != output.path)
    }

    /// The environment in which the command runs.
    pub fn environment(&self) -> Vec<(OsString, OsString)> {
        environment_of(&self.job)
    }
}

/// The environment in which a job runs.
pub fn environment_of(job: &Job) -> Vec<(OsString, OsString)> {
    let given = |name: &OsString| job.variables.iter().any(|(other, _)| name == other.as_str());
    let own = own_variables().filter(|(name, _)| !given(name));
    let further =
        job.variables.iter().filter_map(|(name, value)| Some((name.into(), value.as_ref()?.into())));
    own.chain(further).collect()
}

/// The recipes of a call's commands. cudafe++ and cicc write lines for the host compiler. So lines count for
/// them if they do there, or if something else than a known compile reads what cudafe++ writes.
pub fn recipes<'a>(
    commands: impl Iterator<Item = (usize, &'a PlannedCommand, &'a Job)>,
    tmp: &str,
) -> BTreeMap<usize, Recipe> {
    let (mut recipes, mut lined) = (BTreeMap::new(), BTreeSet::new());
    for (number, command, job) in commands {
        let recipe = Recipe::of(command, job, number, tmp);
        if recipe.as_ref().is_none_or(|recipe| recipe.lines_count) {
            lined.extend(command.reads.iter().map(PathBuf::from));
        }
        recipes.extend(recipe.map(|recipe| (number, recipe)));
    }
    let is_text = |output: &Output| {
        output.path.extension().is_some_and(|extension| extension == "cpp") && lined.contains(&output.path)
    };
    if recipes.values().any(|recipe| recipe.kind == Kind::CudaFe && recipe.outputs.iter().any(is_text)) {
        recipes
            .values_mut()
            .filter(|recipe| matches!(recipe.kind, Kind::CudaFe | Kind::Cicc))
            .for_each(|recipe| recipe.lines_count = true);
    }
    recipes
}

#[cfg(test)]
mod tests {
    use super::*;

    fn command(words: &str, reads: &[&str], writes: &[&str]) -> (PlannedCommand, Job) {
        let (program, rest) = words.split_once(' ').unwrap();
        let list = |words: &[&str]| words.iter().map(|&word| word.to_owned()).collect::<Vec<_>>();
        let words = list(&rest.split(' ').collect::<Vec<_>>());
        let job = Job {
            words: list(&[&[program], &rest.split(' ').collect::<Vec<_>>()[..]].concat()),
            folder: "/w".into(),
            ..Job::default()
        };
        let (reads, writes) = (list(reads), list(writes));
        (
            PlannedCommand {
                program: program.into(),
                words,
                folder: "/w".into(),
                reads,
                writes,
                complete: true,
                ..PlannedCommand::default()
            },
            job,
        )
    }

    fn recipe(words: &str, reads: &[&str], writes: &[&str]) -> Option<Recipe> {
        let (command, job) = command(words, reads, writes);
        Recipe::of(&command, &job, 3, "/t")
    }

    #[test]
    fn what_a_command_reads_of_its_call_is_in_its_key() {
        let ptxas =
            recipe("/b/ptxas -arch=sm_80 -m64 /t/x.ptx -o /t/x.cubin", &["/t/x.ptx"], &["/t/x.cubin"])
                .unwrap();
        let assembly =
            recipe("/b/gcc -c -x assembler /t/late.s -o /t/m.o", &["/t/late.s"], &["/t/m.o"]).unwrap();
        let of = |made: &Recipe| {
            ["x.ptx", "late.s", "y.ptx", "zigrunk.tmp/fatbin.s"].map(|file| made.knows(Path::new(file), "/t"))
        };
        assert_eq!((of(&ptxas), of(&assembly)), ([true, false, false, false], [false, true, false, true]));
    }

    #[test]
    fn a_product_goes_to_the_calls_directory_first() {
        let made = recipe("/b/gcc -DA -c -x c++ -O2 /t/x.cpp -o k.o", &["/t/x.cpp"], &["/w/k.o"]).unwrap();
        assert_eq!(made.counted, ["-c", "-x", "c++", "-O2", "/t/x.cpp", "-o", "\u{1}"]);
        assert_eq!(
            made.job.words.join(" "),
            "/b/gcc -DA -c -x c++ -O2 /t/x.cpp -o /t/zigrunk.tmp/product.3.0"
        );
        let (question, file) = made.question.clone().unwrap();
        assert_eq!(
            (question.words.join(" "), file),
            (
                "/b/gcc -DA -E -x c++ -O2 /t/x.cpp -o /t/zigrunk.tmp/cache.3.ii".into(),
                "/t/zigrunk.tmp/cache.3.ii".into()
            )
        );
        assert!(made.has_products() && made.assembles && made.directory == "/t");
        assert_eq!(made.role_of(Path::new("/t/x.cpp")), Role::Source);
    }

    #[test]
    fn a_source_that_no_tool_has_written_counts_with_its_lines() {
        let of = |source: &str| {
            recipe(&format!("/b/gcc -c -x c++ {source} -o k.o"), &[source], &["/w/k.o"]).unwrap()
        };
        let (own, generated) = (of("/w/x.cpp"), of("/t/x.cpp"));
        assert_eq!(
            [own.has_own_source, own.lines_count, generated.has_own_source, generated.lines_count],
            [true, true, false, false]
        );
    }

    #[test]
    fn what_is_generated_stays_where_it_is() {
        let made = recipe("/b/ptxas -arch=sm_80 -m64 /t/x.ptx -o /t/x.cubin", &["/t/x.ptx"], &["/t/x.cubin"])
            .unwrap();
        assert_eq!(
            (made.job.words.last().unwrap().as_str(), &made.question, made.counted.len()),
            ("/t/x.cubin", &None, 5)
        );
        assert_eq!(made.outputs[0].written_to, made.outputs[0].path);
        assert_eq!(
            ["/t/x.ii", "/t/x.module_id", "/t/ii"].map(|file| made.role_of(Path::new(file))),
            [Role::Preprocessed, Role::Other, Role::Other]
        );
    }

    #[test]
    fn with_debugging_information_names_count() {
        let made = recipe("/b/gcc -g -DA -c -x c++ /t/x.cpp -o k.o", &["/t/x.cpp"], &["/w/k.o"]).unwrap();
        assert_eq!(
            (made.directory.as_str(), made.counted.join(" ").as_str()),
            ("", "-g -DA -c -x c++ /t/x.cpp -o \u{1}")
        );
        let words = "/b/ptxas -arch=sm_80 -g /t/x.ptx -o";
        assert!(recipe(&format!("{words} /t/x.cubin"), &["/t/x.ptx"], &["/t/x.cubin"]).is_some());
        assert_eq!(recipe(&format!("{words} k.cubin"), &["/t/x.ptx"], &["/w/k.cubin"]), None);
        let made = recipe("/b/ptxas -lineinfo /t/x.ptx -o k.cubin", &["/t/x.ptx"], &["/w/k.cubin"]).unwrap();
        assert_eq!(
            (made.directory.as_str(), made.job.words.last().unwrap().as_str()),
            ("", "/t/zigrunk.tmp/product.3.0")
        );
    }

    #[test]
    fn a_fatbin_goes_to_the_calls_directory_first() {
        let words = "/b/fatbinary --create=k.fatbin -64 --image3=kind=elf,sm=80,file=/t/x.cubin";
        let made = recipe(words, &["/t/x.cubin"], &["/w/k.fatbin"]).unwrap();
        assert_eq!(made.counted, ["--create=\u{1}", "-64", "--image3=kind=elf,sm=80,file=/t/x.cubin"]);
        assert_eq!(made.job.words.join(" "), words.replace("k.fatbin", "/t/zigrunk.tmp/product.3.0"));
        assert_eq!(
            (made.directory.as_str(), made.directory_in_texts(), made.kind),
            ("/t", &b""[..], Kind::Fatbinary)
        );
        assert_eq!(
            recipe(words, &["/t/y.cubin"], &["/w/k.fatbin"]),
            None,
            "another file than its record has"
        );
        assert_eq!(
            recipe(words, &["/t/x.cubin"], &["/w/k.fatbin", "/w/k.c"]),
            None,
            "another product than its words name"
        );
        assert_eq!(
            recipe(&words.replace("k.fatbin", "/t/k.fatbin"), &["/t/x.cubin"], &["/t/k.fatbin"]),
            None,
            "for an object"
        );
        let cicc = recipe("/b/cicc -m64 /t/x.ii -o k.ptx", &["/t/x.ii"], &["/w/k.ptx"]).unwrap();
        assert_eq!(cicc.directory_in_texts(), b"/t");
    }

    #[test]
    fn lines_count_for_front_ends_as_for_the_compiler() {
        let front =
            command("/b/cudafe++ --m64 --gen_c_file_name /t/x.cpp /t/x.ii", &["/t/x.ii"], &["/t/x.cpp"]);
        let device = command(
            "/b/cicc -m64 --stub_file_name /t/x.stub.c /t/x1.ii -o /t/x.ptx",
            &["/t/x1.ii"],
            &["/t/x.ptx", "/t/x.stub.c"],
        );
        let counts = |others: &[(PlannedCommand, Job)]| {
            let all = [&[front.clone(), device.clone()], others].concat();
            let recipes =
                recipes(all.iter().enumerate().map(|(number, (command, job))| (number, command, job)), "/t");
            assert_eq!(recipes[&0].lines_count, recipes[&1].lines_count);
            (recipes[&0].lines_count, recipes.len())
        };
        let compile = |words: &str| {
            command(&format!("/b/gcc {words} -c -x c++ /t/x.cpp -o k.o"), &["/t/x.cpp"], &["/w/k.o"])
        };
        let ptxas = command("/b/ptxas -arch=sm_80 -g /t/x.ptx -o /t/x.cubin", &["/t/x.ptx"], &["/t/x.cubin"]);
        assert_eq!(counts(&[compile("-O2"), ptxas]), (false, 4));
        assert_eq!(counts(&[compile("-g")]), (true, 3));
        assert_eq!(counts(&[compile("-O2"), compile("-gsplit-dwarf")]), (true, 3), "a word that isn't known");
        let preprocessor = command("/b/gcc -E -x c++ /t/x.cpp -o k.ii", &["/t/x.cpp"], &["/w/k.ii"]);
        assert_eq!(
            counts(&[(PlannedCommand { preprocesses: true, ..preprocessor.0 }, preprocessor.1)]),
            (true, 2)
        );
    }

    #[test]
    fn what_is_not_known_is_not_cached() {
        let compile = "/b/gcc -c -x c++ /t/x.cpp -o k.o";
        let cases = [
            (compile.replace("-c ", "-c -save-temps "), "/t/x.cpp"),
            (compile.replace("c++", "c"), "/t/x.cpp"),
            (compile.replace("-c", "-S").replace("c++", "assembler"), "/t/x.cpp"),
            (compile.replace("/t/x.cpp", "/t/x.cpp /t/y.cpp"), "/t/x.cpp"),
            (compile.replace("gcc", "clang++"), "/t/x.cpp"),
            (compile.replace("gcc", "gcc.sh"), "/t/x.cpp"),
        ];
        for (words, read) in cases {
            assert_eq!(recipe(&words, &[read], &["/w/k.o"]), None, "{words}");
        }
        let (complete, job) =
            command("/b/ptxas -arch=sm_80 /t/x.ptx -o /t/x.cubin", &["/t/x.ptx"], &["/t/x.cubin"]);
        assert_eq!(Recipe::of(&PlannedCommand { complete: false, ..complete.clone() }, &job, 0, "/t"), None);
        assert_eq!(
            Recipe::of(&PlannedCommand { preprocesses: true, ..complete.clone() }, &job, 0, "/t"),
            None
        );
        assert_eq!(Recipe::of(&PlannedCommand { reads: Vec::new(), ..complete }, &job, 0, "/t"), None);
    }
}
