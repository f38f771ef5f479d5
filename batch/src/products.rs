//! The files that a call of a compiler makes. A runner may lose a call and end with 0, so a product counts
//! only if it is there and new.
use std::fs::{self, Metadata};
use std::os::unix::fs::MetadataExt;
use std::path::{Path, PathBuf};

/// What tells a file from the one of its name that another call made before.
type Identity = (u64, u64, i64, i64, i64, i64);

/// A file that a call is to make.
#[derive(Clone, PartialEq, Eq, Debug)]
pub struct Product {
    pub path: PathBuf,
    /// What was there before the call.
    before: Option<Identity>,
}

fn identity(path: &Path) -> Option<Identity> {
    let of = |file: Metadata| {
        (file.ino(), file.size(), file.mtime(), file.mtime_nsec(), file.ctime(), file.ctime_nsec())
    };
    fs::metadata(path).ok().map(of)
}

impl Product {
    /// A file as words in a folder name it, as it is before the call. `None` for a device or a pipe, which
    /// stays as it is.
    pub fn new(name: &str, folder: &Path) -> Option<Product> {
        let path = folder.join(name);
        if fs::metadata(&path).is_ok_and(|file| !file.is_file()) {
            return None;
        }
        let above = path.parent().and_then(|above| fs::canonicalize(above).ok());
        let path = above.zip(path.file_name()).map(|(above, name)| above.join(name)).unwrap_or(path);
        Some(Product { before: identity(&path), path })
    }

    /// Whether the file is there.
    pub fn is_there(&self) -> bool {
        self.path.exists()
    }

    /// Whether the file is there, and isn't the one that was there before.
    pub fn is_new(&self) -> bool {
        let now = identity(&self.path);
        now.is_some() && now != self.before
    }

    /// Has this machine ask again what is there, if a disk that machines share is late: by a file beside the
    /// product, and by opening it.
    pub fn look_again(&self) {
        let beside = self.path.with_file_name(format!(".zigrunk.{}", std::process::id()));
        drop(fs::File::create(&beside));
        let _ = fs::remove_file(&beside);
        drop(fs::File::open(&self.path));
    }
}

/// What the words of a compiler call say of its products.
#[derive(Default)]
struct Named<'a> {
    output: &'a str,
    folder: &'a str,
    suffix: String,
    sources: Vec<&'a str>,
    /// Whether the products have other names than the sources.
    is_odd: bool,
    /// Whether it makes none.
    is_none: bool,
}

impl<'a> Named<'a> {
    /// Takes the value of an option that came before. Says whether this word is one.
    fn value(&mut self, option: &str, word: &'a str) -> bool {
        match option {
            "-o" | "--output-file" => self.output = word,
            "-odir" | "--output-directory" => self.folder = word,
            _ if option.contains('=') => return false,
            "-include" | "--pre-include" => {}
            _ if option.len() > 2 && option.starts_with("-X") => {}
            _ if option.starts_with("--") && option.ends_with("-options") => {}
            _ => return false,
        }
        true
    }

    fn word(&mut self, word: &'a str) {
        let option = word.split_once('=');
        match (word, option) {
            (_, Some(("-o" | "--output-file", value))) => self.output = value,
            (_, Some(("-odir" | "--output-directory", value))) => self.folder = value,
            ("-c" | "--compile" | "-dc" | "--device-c" | "-dw" | "--device-w", _) => {
                self.suffix = ".o".into();
            }
            ("-ptx" | "--ptx" | "-cubin" | "--cubin" | "-fatbin" | "--fatbin", _) => {
                self.suffix = format!(".{}", word.trim_start_matches('-'));
            }
            (
                "--dryrun" | "-dryrun" | "--help" | "-h" | "--version" | "-V" | "--clean-targets" | "-clean"
                | "-fsyntax-only" | "-###",
                _,
            ) => {
                self.is_none = true;
            }
            ("-E" | "--preprocess" | "-M" | "-MM" | "-x" | "--x", _) => self.is_odd = true,
            _ if word.starts_with("--generate-") && word.ends_with("dependencies") => self.is_odd = true,
            _ if word.starts_with('-') => {}
            _ if [".cu", ".c", ".cc", ".cpp", ".cxx"].iter().any(|suffix| word.ends_with(suffix)) => {
                self.sources.push(word);
            }
            _ => {}
        }
    }

    /// The name of a source's product.
    fn product(&self, source: &str) -> String {
        let name = source.rsplit('/').next().unwrap_or_default();
        let stem = name.rsplit_once('.').map_or(name, |(stem, _)| stem);
        let above = if self.folder.is_empty() { String::new() } else { format!("{}/", self.folder) };
        format!("{above}{stem}{}", self.suffix)
    }
}

/// The files that the words of a compiler call name, if the call makes some. Without `-o` they have the
/// sources' names.
pub fn outputs(words: &[String]) -> Vec<String> {
    let mut named = Named::default();
    let mut before = "";
    for word in words {
        let is_value = named.value(before, word);
        before = if is_value { "" } else { word };
        if !is_value {
            named.word(word);
        }
    }
    match &named {
        Named { is_none: true, .. } => Vec::new(),
        Named { output: "", is_odd: false, suffix, .. } if !suffix.is_empty() => {
            named.sources.iter().map(|source| named.product(source)).collect()
        }
        Named { output: "", .. } => Vec::new(),
        Named { output, .. } => vec![(*output).to_owned()],
    }
}

#[cfg(test)]
mod tests {
    use super::*;
    use crate::test_folder::TestFolder;

    #[test]
    fn words_name_products() {
        let cases = [
            ("-c a.cu -o p", "p"),
            ("-c a.cu --output-file=p", "p"),
            ("-c a.cu -Xcompiler -o --output-file p", "p"),
            ("-c a.cu -o no -o=p", "p"),
            ("-c sub/a.cu", "a.o"),
            ("-dc -include x.c sub/a.b.cu", "a.b.o"),
            ("--ptx a.cu -I x", "a.ptx"),
            ("-cubin a.cu", "a.cubin"),
            ("-odir sub -c a.cu", "sub/a.o"),
            ("-c a.cu --output-directory=sub", "sub/a.o"),
            ("-c a.cu b.cu", "a.o b.o"),
            ("--dryrun -c a.cu -o p", ""),
            ("--version -o p", ""),
            ("a.cu b.cu", ""),
            ("-E a.cu", ""),
            ("--device-c -include x.c --pre-include y.c a.cxx", "a.o"),
            ("-dw a.cc", "a.o"),
            ("--device-w --linker-options x.c a.cpp", "a.o"),
            ("--compile -odir=sub -Xptxas x.c d/a.c", "sub/a.o"),
            ("-X x.c -c a", "x.o"),
            ("-ptx a.cu", "a.ptx"),
            ("--cubin a.cu", "a.cubin"),
            ("-fatbin a.cu", "a.fatbin"),
            ("--fatbin a.cu", "a.fatbin"),
            ("-dryrun -c a.cu -o p", ""),
            ("--help -o p", ""),
            ("-h -o p", ""),
            ("-V -o p", ""),
            ("--clean-targets -c a.cu -o p", ""),
            ("-clean -c a.cu -o p", ""),
            ("-### -c a.cu -o p", ""),
            ("--preprocess -c a.cu", ""),
            ("-MM -c a.cu", ""),
            ("-c --x cu a.cu", ""),
            ("-c -Ix.cu .hidden.cu x.h", ".hidden.o"),
            ("-c -x cu a.cu", ""),
            ("-M -c a.cu", ""),
            ("--generate-dependencies -c a.cu", ""),
            ("-fsyntax-only -c a.c -o p", ""),
            ("a.cu -o p", "p"),
            ("-Xcompiler=-c a.cu", ""),
            ("--compiler-options -c a.cu", ""),
            ("", ""),
        ];
        for (line, wanted) in cases {
            let words: Vec<String> = line.split_whitespace().map(String::from).collect();
            assert_eq!(outputs(&words).join(" "), wanted, "{line}");
        }
    }

    #[test]
    fn a_product_counts_if_it_is_new() {
        let folder = TestFolder::new();
        fs::create_dir_all(folder.join("sub")).unwrap();
        let product = Product::new("sub/../p", &folder).unwrap();
        assert!(!product.is_new());
        fs::write(folder.join("p"), "made").unwrap();
        assert!(product.is_new());
        let again = Product::new("p", &folder).unwrap();
        assert_eq!(again.path, fs::canonicalize(&folder).unwrap().join("p"));
        assert!(!again.is_new());
        again.look_again();
        fs::write(folder.join("q"), "made").unwrap();
        fs::rename(folder.join("q"), folder.join("p")).unwrap();
        assert!(again.is_new());
        assert_eq!(Product::new("sub", &folder), None);
        assert_eq!(fs::read_dir(&folder).unwrap().count(), 2);
    }
}
