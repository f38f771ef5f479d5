//! What the words of a command are to its key, by the table of `command_keys`. A command with a word that
//! isn't there isn't cached.
use crate::tool::Kind;
use command_keys::{CountedWord, NamedFiles};
use compilers::plans::Program;
use rattle_std::alloc::Global;

/// The tool of a kind, as the table has it.
pub fn program_of(kind: Kind) -> Program {
    match kind {
        Kind::CudaFe => Program::Cudafe,
        Kind::Cicc => Program::Cicc,
        Kind::Ptxas => Program::Ptxas,
        Kind::Fatbinary => Program::Fatbinary,
        Kind::Host => Program::Other,
    }
}

fn bytes_of(words: &[String]) -> Vec<&[u8]> {
    words.iter().map(String::as_bytes).collect()
}

/// Calls a function with each word of a command as it counts, given the command's files. `None` if the cache
/// doesn't know one of them, or if one names a file that the command doesn't read.
pub fn with_counted<T>(
    kind: Kind,
    words: &[String],
    files: &NamedFiles<'_>,
    read: impl FnOnce(&[CountedWord<'_>]) -> T,
) -> Option<T> {
    let counted = command_keys::counted_words(Global, program_of(kind), &bytes_of(words), files).ok()??;
    Some(read(counted.as_slice()))
}

/// A part of a word.
pub fn text_of(part: &[u8]) -> String {
    String::from_utf8_lossy(part).into_owned()
}

fn are_known(kind: Kind, words: &[String]) -> bool {
    command_keys::read_words(Global, program_of(kind), &bytes_of(words)).is_ok_and(|known| known.is_some())
}

/// Whether names of files and folders may reach what a command with these words makes.
pub fn names_count(kind: Kind, words: &[String]) -> bool {
    command_keys::names_reach(program_of(kind), &bytes_of(words))
}

/// Whether a host compiler makes one file of a language, in one of these phases.
fn makes_one(words: &[String], language: &str, phases: &[&str]) -> bool {
    let count = |sought: &[&str]| words.iter().filter(|word| sought.contains(&word.as_str())).count();
    let languages = words.windows(2).filter(|pair| pair[0] == "-x" && pair[1] == language).count();
    let made = count(&["-c", "-S"]) == 1 && count(phases) == 1;
    made && (count(&["-x"]), languages) == (1, 1) && count(&["-o"]) == 1
}

/// Whether these are the words of a host compile of C++ to an object, or to assembler text.
pub fn is_compile(words: &[String]) -> bool {
    makes_one(words, "c++", &["-c", "-S"])
}

/// Whether these are the words by which a host compiler has assembler text made an object.
pub fn is_assembly(words: &[String]) -> bool {
    makes_one(words, "assembler", &["-c"])
}

/// Whether all words of a preprocessor are known: it reads what its text's line markers name, and writes that
/// text alone.
pub fn is_preprocess(words: &[String]) -> bool {
    let mut others = Vec::with_capacity(words.len());
    let mut rest = words.iter();
    while let Some(word) = rest.next() {
        match word.as_str() {
            "-E" => {}
            "-include" => drop(rest.next()),
            _ => others.push(word.clone()),
        }
    }
    let is_other = |word: &String| matches!(word.as_str(), "-c" | "-S");
    are_known(Kind::Host, &others) && !others.iter().any(is_other)
}

/// What the words of a preprocessor define.
pub fn defined(words: &[String]) -> Vec<&str> {
    let joined =
        words.iter().filter_map(|word| word.strip_prefix("-D")).filter(|definition| !definition.is_empty());
    joined.chain(words.windows(2).filter(|pair| pair[0] == "-D").map(|pair| pair[1].as_str())).collect()
}

#[cfg(test)]
mod tests {
    use super::*;
    use command_keys::{Form, KnownWord, Meaning, ReadWord, Role};

    fn list(words: &str) -> Vec<String> {
        words.split(' ').map(String::from).collect()
    }

    /// What a function says of the words as they are read, if all are known.
    fn with_read<T>(kind: Kind, words: &[String], read: impl FnOnce(&[ReadWord<'_>]) -> T) -> Option<T> {
        let known = command_keys::read_words(Global, program_of(kind), &bytes_of(words)).unwrap()?;
        Some(read(known.as_slice()))
    }

    fn is_known(kind: Kind, words: &str) -> bool {
        are_known(kind, &list(words))
    }

    #[test]
    fn words_of_nvcc_are_known() {
        let front = "--c++17 --static-host-stub --device-hidden-visibility --gnu_version=120200 --display_error_number --orig_src_file_name k.cu \
                     --orig_src_path_name /w/k.cu --allow_managed";
        assert!(is_known(
            Kind::CudaFe,
            &format!("{front} --m64 --parse_templates --gen_c_file_name a --stub_file_name b x.ii")
        ));
        assert!(is_known(
            Kind::Cicc,
            &format!("{front} -arch compute_80 -m64 -ftz=0 -prec_div=1 -fmad=1 -tused x.ii -o x.ptx")
        ));
        assert!(is_known(Kind::Ptxas, "-arch=sm_80 -m64 x.ptx -o x.cubin"));
        let images = "--image3=kind=elf,sm=80,file=x.cubin --image3=file=x.ptx,kind=ptx,sm=80";
        assert!(is_known(
            Kind::Fatbinary,
            &format!(
                "--create=x.fatbin -64 --cicc-cmdline=-fmad=1 {images} --embedded-fatbin=x.fatbin.c --device-c"
            )
        ));
        assert!(is_known(
            Kind::Host,
            "-D__CUDA_ARCH__=800 -c -x c++ -Wno-psabi -I/i -isystem /s -m64 -O2 x.cpp -o k.o"
        ));
        assert!(is_preprocess(&list(
            "-D__CUDACC__ -E -x c++ -I/i -D NAME=name -U X -include cuda_runtime.h -m64 k.cu -o k.ii"
        )));
        assert!(!is_preprocess(&list("-E -x c++ k.cu -o k.ii -D")));
    }

    #[test]
    fn what_nvcc_makes_of_its_options_is_known() {
        let cases = [
            ("--std=c++20 --std=c++03", Kind::CudaFe, "--c++20 --c++03"),
            ("-std=c++11 -std=c++14", Kind::Cicc, "--c++11 --c++14"),
            (
                "-extended-lambda -expt-relaxed-constexpr",
                Kind::CudaFe,
                "--extended-lambda --relaxed_constexpr",
            ),
            ("-rdc=true -keep-device-functions", Kind::Cicc, "--device-c --keep-device-functions"),
            ("-G", Kind::CudaFe, "--debug_mode"),
            ("-G", Kind::Cicc, "--debug_mode -O0 -g"),
            ("-G", Kind::Ptxas, "-g --dont-merge-basicblocks --return-at-end"),
            ("-lineinfo", Kind::Cicc, "-generate-line-info -inline-info"),
            ("-lineinfo", Kind::Ptxas, "--generate-line-info -lineinfo"),
            ("-use_fast_math", Kind::Cicc, "--gen_div_approx_ftz -fast-math -ftz=1 -prec_div=0 -prec_sqrt=0"),
            ("-restrict -maxrregcount 32", Kind::Cicc, "-kernel-params-are-restrict -maxreg 32"),
            ("-maxrregcount 32", Kind::Ptxas, "-maxrregcount=32 --maxrregcount=32"),
            ("-diag-suppress 1 -Xcudafe --diag_warn=2", Kind::CudaFe, "--diag_suppress 1 --diag_warn=2"),
            ("-diag-error 1 -w", Kind::Cicc, "--diag_error 1 --diag_error=1 --no_warnings"),
            ("-Werror all-warnings", Kind::CudaFe, "--promote_warnings"),
            ("-Werror all-warnings", Kind::Ptxas, "--warning-as-error"),
            ("-split-compile 2", Kind::Cicc, "-split-compile 2"),
            ("-split-compile 2 -rdc=true", Kind::Ptxas, "-split-compile=2 --compile-only"),
            ("-Xptxas -v,-O1,-dlcm=ca", Kind::Ptxas, "-v -O1 -O0 -O2 -O3 -dlcm=ca"),
            (
                "-Xptxas -warn-spills",
                Kind::Ptxas,
                "-warn-spills -warn-lmem-usage -suppress-stack-size-warning",
            ),
            (
                "-Xptxas --allow-expensive-optimizations=true",
                Kind::Ptxas,
                "--allow-expensive-optimizations=true",
            ),
            (
                "-Xcicc -extra-device-vectorization",
                Kind::Cicc,
                "-extra-device-vectorization --unicode_source_kind=UTF-8",
            ),
            ("-G", Kind::Fatbinary, "--ident=k.cu --cmdline=-g -g"),
            ("-Xfatbin -compress-all", Kind::Fatbinary, "-compress-all"),
            ("-no-compress --compress-mode=size", Kind::Fatbinary, "-compress=false --compress-mode=size"),
            ("-Xcompiler -pedantic,-fno-gnu-unique", Kind::Host, "-pedantic -fno-gnu-unique"),
        ];
        for (options, kind, words) in cases {
            assert!(is_known(kind, words), "{options}: {words}");
        }
    }

    const KINDS: [Kind; 5] = [Kind::CudaFe, Kind::Cicc, Kind::Ptxas, Kind::Fatbinary, Kind::Host];

    #[test]
    fn all_that_is_known_are_options() {
        for row in KINDS.iter().flat_map(|&kind| command_keys::own_words(program_of(kind))) {
            assert!(row.text.len() > 1 && row.text.starts_with('-') && !row.does.is_empty(), "{row:?}");
        }
    }

    #[test]
    fn a_host_compiler_takes_each_word() {
        let is_taken =
            |row: &&KnownWord| matches!(row.form, Form::Whole) && !matches!(row.meaning, Meaning::Refused);
        let words = command_keys::own_words(Program::Other).iter().filter(is_taken).map(|row| row.text);
        let tried = std::process::Command::new("g++")
            .args(["-x", "c++", "-fsyntax-only", "/dev/null"])
            .args(words)
            .output();
        let tried = tried.ok().filter(|_| cfg!(target_arch = "x86_64"));
        assert!(tried.as_ref().is_none_or(|tried| tried.status.success()), "{tried:?}");
    }

    #[test]
    fn other_words_are_not() {
        let cases = [
            (Kind::CudaFe, "--error_output=e.txt"),
            (Kind::CudaFe, "--preinclude=b.h"),
            (Kind::CudaFe, "--list=l.txt"),
            (Kind::CudaFe, "-arch"),
            (Kind::CudaFe, "--gen_c_file_name"),
            (Kind::Cicc, "-olto x"),
            (Kind::Cicc, "-show-src"),
            (Kind::Cicc, "--emit-optix-ir"),
            (Kind::Ptxas, "--options-file=o.txt"),
            (Kind::Ptxas, "-optf o.txt"),
            (Kind::Ptxas, "--compiler-stats-file=s.txt"),
            (Kind::Ptxas, "-arch=compute_80"),
            (Kind::Ptxas, "@o.txt"),
            (Kind::Fatbinary, "--image3"),
            (Kind::Fatbinary, "-image3=kind=elf,sm=80,file=x.cubin"),
            (Kind::Fatbinary, "--image3=kind=elf,sm=80"),
            (Kind::Fatbinary, "--image3=kind=elf,file=x.cubin,file=y.cubin"),
            (Kind::Fatbinary, "--image3=kind=elf,file=\"x.cubin\""),
            (Kind::Fatbinary, "--image2=kind=elf,file=x.o"),
            (Kind::Fatbinary, "--create="),
            (Kind::Fatbinary, "--create=x\\y"),
            (Kind::Fatbinary, "-create=x"),
            (Kind::Fatbinary, "--options-file=o.txt"),
            (Kind::Fatbinary, "x.cubin"),
        ];
        for (kind, words) in cases {
            assert!(!is_known(kind, words), "{words}");
        }
    }

    #[test]
    fn words_of_gcc_with_more_files_are_not() {
        let words = "-MD -MMD -MFx.d -save-temps --coverage -fprofile-use -fprofile-arcs -ftest-coverage -fstack-usage -fcallgraph-info -aux-info \
                     -fsave-optimization-record -fopt-info -fdump-tree-all -gsplit-dwarf -flto -pipe -time -time=t -v -H -Wa,-a -Wp,-MD -Wl,-z -B. \
                     -specs=s -wrapper -fplugin=p -march=native -mtune=native -include -imacros -frecord-gcc-switches -fdebug-prefix-map=a=b -g3 \
                     -ggdb3 -fmodules-ts -pg -m32 -D -I -U @o --param -fpch-preprocess -ffile-prefix-map=a=b -no-canonical-prefixes --sysroot=/ \
                     -fwrapper -fcompare-debug -E -M -";
        for word in words.split_whitespace() {
            assert!(!is_known(Kind::Host, word), "{word}");
        }
    }

    #[test]
    fn words_name_files() {
        let pairs = |read: &[ReadWord<'_>]| {
            read.iter().map(|word| (text_of(word.name), word.role)).collect::<Vec<_>>()
        };
        let names = |words: &str| with_read(Kind::Fatbinary, &list(words), pairs);
        let wanted = [
            ("/t/a.x", Role::Names),
            ("b.c", Role::Names),
            ("x,y", Role::Names),
            ("c", Role::Reads),
            ("d=e", Role::Reads),
        ];
        let words = "--create=/t/a.x --embedded-fatbin=b.c --create=x,y --image3=file=c,kind=elf --image3=kind=ptx,file=d=e";
        assert_eq!(names(words), Some(wanted.map(|(name, role)| (name.to_owned(), role)).to_vec()));
        assert_eq!(names("-64 --cmdline=file=x"), Some(vec![(String::new(), Role::Counts); 2]));
    }

    #[test]
    fn what_only_the_preprocessor_reads_has_its_role() {
        let roles = |kind, words: &str| {
            with_read(kind, &list(words), |read| read.iter().map(|word| word.role).collect::<Vec<_>>())
        };
        let wanted = [
            Role::Preprocessor,
            Role::Preprocessor,
            Role::Preprocessor,
            Role::Counts,
            Role::Counts,
            Role::Names,
            Role::Reads,
        ];
        assert_eq!(roles(Kind::Host, "-DA=1 -isystem /s -O2 -o k.o x.cpp"), Some(wanted.to_vec()));
        assert_eq!(roles(Kind::Cicc, "-DA=1"), None);
    }

    #[test]
    fn words_for_debuggers_have_names_count() {
        let cases = [
            (Kind::Host, "-O2 -g", true),
            (Kind::Host, "-gdwarf-4", true),
            (Kind::Host, "-g0", false),
            (Kind::Host, "-O2", false),
            (Kind::Cicc, "-generate-line-info", true),
            (Kind::Cicc, "--debug_mode", true),
            (Kind::Cicc, "-tused", false),
            (Kind::Ptxas, "--generate-line-info", true),
            (Kind::Ptxas, "-v", false),
            (Kind::CudaFe, "--debug_mode", true),
        ];
        for (kind, words, wanted) in cases {
            assert_eq!(names_count(kind, &list(words)), wanted, "{words}");
        }
    }

    #[test]
    fn words_of_preprocessors_are_known() {
        let nvccs = "-D__CUDA_ARCH__=750 -E -x c++ -D A -U B -I/i -isystem /s -I j -include cuda_runtime.h -m64 k.cu -o k.ii";
        assert!(is_preprocess(&list(nvccs)));
        assert_eq!(defined(&list(nvccs)), ["__CUDA_ARCH__=750", "A"]);
        for word in [
            "-c",
            "-MD",
            "-imacros m.h",
            "-dD",
            "-C",
            "-P",
            "-H",
            "-nostdinc",
            "-iquote q",
            "-idirafter d",
            "-fdirectives-only",
            "-B.",
        ] {
            assert!(!is_preprocess(&list(&format!("{nvccs} {word}"))), "{word}");
        }
    }

    #[test]
    fn compiles_have_one_language_and_one_output() {
        let cases = [
            ("-c -x c++ x -o k.o", true),
            ("-S -x c++ x -o k.s", true),
            ("-c -x assembler x -o k.o", false),
            ("-c -S -x c++ x -o k.o", false),
            ("-x c++ x -o k.o", false),
            ("-c -x c++ x", false),
            ("-c -x c++ -x c x -o k.o", false),
        ];
        for (words, wanted) in cases {
            assert_eq!(is_compile(&list(words)), wanted, "{words}");
        }
    }
}
