//! Cases of erasing: a text, and what is left of it. `cargo test -p eraser NAME` runs one.

use crate::ghost::{delete_calls, erase, has_laws_alone, laws_of_values};
use crate::layout;
use crate::source::{Fault, Source};
use crate::tokens::tokens;
use std::fs;
use std::path::{Path, PathBuf};

fn left(text: &str) -> Result<String, Fault> {
    let mut source = Source::new(text)?;
    erase(&mut source)?;
    let laws = laws_of_values(&source).into_iter().collect();
    delete_calls(&mut source, &laws);
    Ok(layout::text(&source))
}

macro_rules! cases {
    ($($name:ident: $text:expr => $left:expr;)*) => {
        $(
            #[test]
            fn $name() {
                assert_eq!(left($text).expect("text that can be erased"), $left);
            }
        )*
    };
}

cases! {
    ghost_uses:
        "//! A file.\n#![tactic(auto)]\n\nghost use Rattle.a.{◌≡◌, [], \"}\"};\nghost use Rattle.b as spec;\n\nuse a::B;\n\nstruct C(B);\n"
        => "//! A file.\n\nuse a::B;\n\nstruct C(B);\n";
    a_clause:
        "fn one() -> u8\n    ensures { result ≡ 1 }\n{\n    1\n}\n"
        => "fn one() -> u8 {\n    1\n}\n";
    named_clauses_with_comments:
        "fn one(a: u8) -> u8\n    // Why.\n    requires small { a < 2 }\n    ensures same { result ≡ a }\n{\n    a\n}\n"
        => "fn one(a: u8) -> u8 {\n    a\n}\n";
    clauses_with_braces_and_strings:
        "fn one(a: u8) -> u8\n    ensures { f (record { a = codes \"}{\"; b = { a } }) '}' }\n{\n    a\n}\n"
        => "fn one(a: u8) -> u8 {\n    a\n}\n";
    a_clause_of_a_trait:
        "trait A {\n    fn one(&self) -> u8\n        ensures { result ≡ 1 };\n}\n"
        => "trait A {\n    fn one(&self) -> u8;\n}\n";
    ghost_members:
        "impl Eq for A {\n    ghost use Rattle.b.{C};\n\n    // What it is.\n    ghost eq = { λ a b. {a} };\n    ghost log: { Self → ℕ };\n\n    fn a() {}\n}\n"
        => "impl Eq for A {\n    fn a() {}\n}\n";
    a_model:
        "use std::marker::{Model, PhantomData};\n\nstruct A(PhantomData<u8>);\n\n// As a number.\nimpl<'a, T: B<C>> Model for A {\n    ghost use Rattle.b.{C};\n\n    ghost Value = { ℕ };\n}\n\nstruct D;\n"
        => "use std::marker::PhantomData;\n\nstruct A(PhantomData<u8>);\n\nstruct D;\n";
    an_import_of_model_alone:
        "use a::A;\nuse std::marker::Model;\nuse b::B;\n\nstruct C(A, B);\n"
        => "use a::A;\nuse b::B;\n\nstruct C(A, B);\n";
    derives:
        "#[derive(Drop)]\nstruct A;\n\n#[derive(Debug, Drop)]\nstruct B;\n\n#[derive(Drop, Debug)]\nstruct C;\n"
        => "struct A;\n\n#[derive(Debug)]\nstruct B;\n\n#[derive(Debug)]\nstruct C;\n";
    bounds:
        "impl<T: Drop> A<T> {}\nfn a<F: Fn(&str) -> bool + Drop, S: Drop + B<T>>(f: F) {}\nstruct C<S: B<T> + Drop, T: Drop>(S, T);\n"
        => "impl<T> A<T> {}\nfn a<F: Fn(&str) -> bool, S: B<T>>(f: F) {}\nstruct C<S: B<T>, T>(S, T);\n";
    predicates_that_all_go:
        "fn a<C: B>(c: C)\nwhere\n    C::D: Drop,\n    ensures { x }\n{\n}\n"
        => "fn a<C: B>(c: C) {\n}\n";
    predicates_that_stay:
        "fn a<C: B>(c: C)\nwhere\n    C::D: Drop,\n    C: E,\n{\n}\n"
        => "fn a<C: B>(c: C)\nwhere\n    C: E,\n{\n}\n";
    an_implementation_of_drop_stays:
        "impl Drop for A {\n    fn drop(&mut self) {}\n}\n"
        => "impl Drop for A {\n    fn drop(&mut self) {}\n}\n";
    a_proof_and_its_name:
        "fn a(b: u8) -> u8 {\n    // Small.\n    let fits = b < 3;\n    prove!(fits);\n    b\n}\n"
        => "fn a(b: u8) -> u8 {\n    b\n}\n";
    a_proof_of_a_name_that_is_read:
        "fn a(b: u8) -> bool {\n    let fits = b < 3;\n    prove!(fits);\n    fits\n}\n"
        => "fn a(b: u8) -> bool {\n    let fits = b < 3;\n    fits\n}\n";
    a_theorem:
        "/// It holds.\n#[inline]\npub fn law<T: Copy>()\n    requires { a }\n    ensures { b }\n{\n    other::laws::a();\n}\n\nfn a() {}\n"
        => "fn a() {}\n";
    functions_that_do_something_stay:
        "fn a()\n    ensures { b }\n{\n    c(1);\n}\nfn d() {}\n"
        => "fn a() {\n    c(1);\n}\nfn d() {}\n";
    writers:
        "impl fmt::Display for A {\n    ghost output = { a };\n\n    fn fmt<W: fmt::Write>(&self, f: &mut fmt::Formatter<W>) -> fmt::Result {\n        f.write_str(\"<W>\")\n    }\n}\n"
        => "impl fmt::Display for A {\n    fn fmt(&self, f: &mut fmt::Formatter) -> fmt::Result {\n        f.write_str(\"<W>\")\n    }\n}\n";
    labels:
        "fn a() {\n    'b: loop {\n        'c: for d in e {\n            break 'b;\n        }\n    }\n}\n"
        => "fn a() {\n    'b: loop {\n        for d in e {\n            break 'b;\n        }\n    }\n}\n";
    imports_without_readers:
        "use a::b;\nuse std::io::{self, Write};\npub use a::c;\nuse d::{e, f::g};\n\nfn h(x: Write) {\n    g::i()\n}\n"
        => "use std::io::Write;\npub use a::c;\nuse d::f::g;\n\nfn h(x: Write) {\n    g::i()\n}\n";
    ghost_text_in_strings_and_comments:
        "// ghost use a;\n/* prove!(x); */\nconst A: &str = \"ghost use a; ensures { }\";\nconst B: &[u8] = br#\"#[derive(Drop)] \"# ;\nconst C: char = '{';\n"
        => "// ghost use a;\n/* prove!(x); */\nconst A: &str = \"ghost use a; ensures { }\";\nconst B: &[u8] = br#\"#[derive(Drop)] \"# ;\nconst C: char = '{';\n";
    words_that_only_look_alike:
        "fn ensures(requires: u8) -> A {\n    ensures { a: ghosts }\n}\nmacro_rules! prove_all {\n    ($a:expr) => { prover!($a); };\n}\n"
        => "fn ensures(requires: u8) -> A {\n    ensures { a: ghosts }\n}\nmacro_rules! prove_all {\n    ($a:expr) => { prover!($a); };\n}\n";
    what_contracts_see:
        "/// A list. Contracts see it\n/// as a list.\nstruct A;\n\n/// Bytes, seen in contracts as numbers.\n///\n/// Contracts see it.\nstruct B;\n"
        => "/// A list.\nstruct A;\n\n/// Bytes.\nstruct B;\n";
    which_law_is_about_it:
        "//! Alike (`laws::alike`). A\n//! text.\n\n/// Orders. `laws::orders` says more.\n///\n/// Variables (`specs/A` says which).\n/// Alike (the law `b`).\nfn a() {}\n"
        => "//! Alike. A\n//! text.\n\n/// Orders.\n///\n/// Variables.\n/// Alike.\nfn a() {}\n";
    a_law_of_values:
        "impl A {\n    /// It holds.\n    pub fn law(&self)\n        ensures { a }\n    {\n        let _ = &self.b;\n    }\n\n    fn c(&self) -> u8 {\n        self.law();\n        self.b.law();\n        self.law()\n    }\n}\n"
        => "impl A {\n    fn c(&self) -> u8 {\n        self.b.law();\n        self.law()\n    }\n}\n";
    methods_that_are_no_laws_of_values:
        "impl A {\n    fn law(&self) {\n        let _ = &self.b;\n    }\n\n    fn c(&self)\n        ensures { a }\n    {\n        let _ = self.b();\n        self.law();\n    }\n}\n"
        => "impl A {\n    fn law(&self) {\n        let _ = &self.b;\n    }\n\n    fn c(&self) {\n        let _ = self.b();\n        self.law();\n    }\n}\n";
    what_contracts_do_not_know:
        "/// Files. What they hold isn't known to contracts, and\n/// so any do.\nstruct A;\n\n/// Clean. The laws of names are about it.\nstruct B;\n\n/// Never fails; no clause says so.\nstruct C;\n"
        => "/// Files.\nstruct A;\n\n/// Clean.\nstruct B;\n\n/// Never fails.\nstruct C;\n";
    documentation_that_goes_on:
        "/// A. Contracts see it. B.\n/// Contracts see, as `a.b`\n\n// A. Contracts see it.\nstruct A;\n"
        => "/// A. Contracts see it. B.\n/// Contracts see, as `a.b`\n\n// A. Contracts see it.\nstruct A;\n";
    types_of_functions:
        "type A = fn(u8) -> u8;\nfn a(f: fn(u8) -> (u8, [u8; 2])) -> fn() -> u8\n    ensures { b }\n{\n    f\n}\n"
        => "type A = fn(u8) -> u8;\nfn a(f: fn(u8) -> (u8, [u8; 2])) -> fn() -> u8 {\n    f\n}\n";
}

#[test]
fn text_that_is_no_source() {
    for (text, fault) in [
        ("fn a() { \"", Fault::Unended(9)),
        ("fn a() { ) }", Fault::Unbalanced(9)),
        ("ghost a;", Fault::UnknownGhost(0)),
        ("ghost a = { b }", Fault::UnknownGhost(0)),
        (
            "impl Model for A {\n    fn b() {}\n}",
            Fault::ModelWithCode(0),
        ),
        ("impl Model for A", Fault::ModelWithCode(0)),
    ] {
        assert_eq!(left(text), Err(fault));
    }
}

#[test]
fn files_of_theorems() {
    for (text, is_alone) in [
        (
            "//! Laws.\npub use a::laws::b;\nuse c::D;\n\npub fn e()\n    ensures { D }\n{}\n",
            true,
        ),
        ("pub use a::b;\n", false),
        ("pub fn e()\n    ensures { D }\n{}\nstruct A;\n", false),
    ] {
        let mut source = Source::new(text).expect("a text with an end");
        erase(&mut source).expect("text that can be erased");
        assert_eq!(has_laws_alone(&source), is_alone, "{text}");
    }
}

/// Pieces of a file, each with its ghost text between marks.
const PIECES: [&str; 12] = [
    "⟨ghost use Rattle.a.{B, \"⟩⟨{\"};⟩ use a::B;",
    "const A: &str = \"ensures {\"; // ghost use c;\n",
    "fn a(b: u8) -> u8 ⟨ensures c { b '{' ≡ \"}\" }⟩ { b }",
    "impl A { ⟨ghost b = { { c } };⟩ fn d(&'static self); }",
    "⟨#[derive(Drop)]⟩ struct B<T⟨: Drop⟩>(T);",
    "#[derive(Debug⟨, Drop⟩)] struct C<T: Copy⟨ + Drop⟩>(T);",
    "⟨/// Holds.\npub(crate) fn law() ensures { a } {}⟩",
    "⟨impl<'a> Model for A<'a> { ghost c = { d }; }⟩",
    "fn e() -> char { let f = '\\''; ⟨let g = f < 'c'; prove!(g);⟩ f }",
    "fn fmt⟨<W: fmt::Write>⟩(&self, f: &mut fmt::Formatter⟨<W>⟩) { \"<W>\" }",
    "const D: [u8; 3] = *br#\"\"}\"#; /* } /* ghost */ { */",
    "fn h<F: Fn() -> u8⟨ + Drop⟩>(f: F) ⟨where F::G: Drop, requires { a } ensures { b }⟩ { f() }",
];

/// A file of drawn pieces, with ghost text and without.
fn drawn(seed: &mut u64) -> (String, String) {
    let (mut whole, mut plain) = (String::new(), String::new());
    for _ in 0..20 {
        *seed = seed
            .wrapping_mul(6_364_136_223_846_793_005)
            .wrapping_add(1_442_695_040_888_963_407);
        let piece = PIECES[(*seed >> 33) as usize % PIECES.len()].replace("⟩⟨{", "}{");
        for (number, part) in piece.split(['⟨', '⟩']).enumerate() {
            whole.push_str(part);
            if number % 2 == 0 {
                plain.push_str(part);
            }
        }
        whole.push('\n');
        plain.push('\n');
    }
    (whole, plain)
}

fn words(text: &str) -> Vec<&str> {
    let found = tokens(text).expect("a text with an end");
    found.into_iter().map(|it| it.text).collect()
}

#[test]
fn drawn_files() {
    let mut seed = 66;
    for number in 0..2000 {
        let (whole, plain) = drawn(&mut seed);
        let left = left(&whole).expect("text that can be erased");
        assert_eq!(words(&left), words(&plain), "file {number}:\n{whole}");
    }
}

/// The sources below a folder, without what the kit has built there.
fn sources(folder: &Path, found: &mut Vec<PathBuf>) {
    for entry in fs::read_dir(folder).expect("a folder") {
        let path = entry.expect("an entry").path();
        if path.ends_with("out") {
            continue;
        }
        if path.is_dir() {
            sources(&path, found);
        } else if path.extension().is_some_and(|it| it == "rt") {
            found.push(path);
        }
    }
}

/// What is left has nothing to erase, and each ghost word of the proved sources is known.
#[test]
fn what_is_left_stays() {
    let mut paths = Vec::new();
    sources(
        &Path::new(env!("CARGO_MANIFEST_DIR")).join("../../crates"),
        &mut paths,
    );
    assert!(paths.len() > 200, "{} sources", paths.len());
    for path in paths {
        let text = fs::read_to_string(&path).expect("a source");
        let once = left(&text).expect("a source that can be erased");
        assert_eq!(left(&once).expect("the same"), once, "{}", path.display());
    }
}
