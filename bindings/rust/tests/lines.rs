//! Lines of tools, and canonical names.

use zigrunk::{
    Call, ColorMode, ErrorKind, Input, Language, LineCall, NvccCall, Output, Tool, Variable, line_records, line_words, remap,
};

fn words(text: &str) -> Vec<String> {
    text.split(' ').map(String::from).collect()
}

#[test]
fn a_line_of_cicc() {
    let words = words("--device-c -arch compute_80 --module_id_file_name m k.cpp1.ii --simt-only -o k.ptx");
    let call = LineCall { tool: Tool::Cicc, cwd: "/w".as_ref(), words: &words, variables: &[] };
    assert!(line_words(&call).unwrap().iter().any(|word| word == "/w/k.ptx"));
    for tool in [Tool::Cicc, Tool::Ptxas, Tool::CudaFe, Tool::Nvcc, Tool::Nvc, Tool::Nvcxx] {
        assert_eq!(line_words(&LineCall { tool, words: &[], ..call }).unwrap_err().kind(), ErrorKind::BadLine, "{tool:?}");
    }
}

#[test]
fn a_line_of_nvcc_as_a_value() {
    let given = words("-MD -MF k.d -c k.cu -o k.o -t 2 -DA -arch sm_75");
    let call = LineCall { tool: Tool::Nvcc, cwd: "/w".as_ref(), words: &given, variables: &[] };
    let line = line_records(&call).unwrap();
    assert_eq!((line.input(), line.language(), line.compilation_flag()), ("k.cu", Language::Cuda, "-c"));
    let outputs = [Output { key: "d", path: "k.d", is_optional: false }, Output { key: "obj", path: "k.o", is_optional: false }];
    assert!(line.outputs().eq(outputs));
    assert!(line.dependency_args().eq(["-MD", "-MF", "k.d", "-MT", "k.o"]) && line.unhashed_args().eq(["-t2"]));
    assert!(line.preprocessor_args().any(|word| word == "-DA"));
    assert_eq!((line.color_mode(), line.double_dash_input()), (ColorMode::Auto, false));
    assert_eq!(line, line_records(&call).unwrap());
    let shown = concat!(
        r#"Line { input: "k.cu", outputs: [Output { key: "d", path: "k.d", is_optional: false }, "#,
        r#"Output { key: "obj", path: "k.o", is_optional: false }], language: Cuda, compilation_flag: "-c", "#,
        r#"dependency_args: ["-MD", "-MF", "k.d", "-MT", "k.o"], preprocessor_args: ["-DA"], common_args: ["-arch", "sm_75", "-c"], "#,
        r#"arch_args: [], unhashed_args: ["-t2"], extra_dist_files: [], extra_hash_files: [], "#,
        "color_mode: Auto, double_dash_input: false }",
    );
    assert_eq!(format!("{line:?}"), shown);
    assert_ne!(line_records(&LineCall { words: &words("-c j.cu"), ..call }).unwrap(), line);
}

#[test]
fn lines_of_device_tools_as_values() {
    let given = words("--device-c --module_id_file_name m k.cpp1.ii -o k.ptx");
    let call = LineCall { tool: Tool::Cicc, cwd: "/w".as_ref(), words: &given, variables: &[] };
    let line = line_records(&call).unwrap();
    assert_eq!((line.language(), line.color_mode()), (Language::Ptx, ColorMode::Off));
    assert!(line.common_args().eq(["--device-c", "--module_id_file_name", "m"]) && line.arch_args().len() == 0);
    assert!(line.extra_hash_files().eq(["/w/m"]) && line.extra_dist_files().eq(["/w/m"]));
    assert!(matches!(line_records(&LineCall { tool: Tool::CudaFe, ..call }).map(|line| line.language()), Ok(Language::CudaFe)));
    let refused = line_records(&LineCall { words: &[], ..call });
    let error = refused.unwrap_err();
    assert_eq!((error.kind(), error.to_string().as_str(), error.place()), (ErrorKind::BadLine, "not a compilation", None));
    let long: Vec<String> = (0..2000).map(|number| format!("-DNAME_{number}")).chain(given.clone()).collect();
    assert_eq!(line_records(&LineCall { words: &long, ..call }).unwrap().common_args().len(), 2003);
}

#[test]
fn a_line_of_nvcc() {
    let given = words("-MD -MF k.d --threads 2 -c k.cu -o k.o");
    let call = NvccCall::new("nvcc", &given).at("/w", "/t");
    let read = Call::new(&call).unwrap();
    let [own, first, second] = read.dry_runs();
    assert_eq!(own.words(), ["nvcc", "--dryrun", "-MD", "-MF", "k.d", "--threads", "2", "-c", "k.cu", "-o", "k.o"]);
    assert_eq!(first.words(), ["nvcc", "-x", "cu", "-o", "k.o", "-c", "k.cu", "--dryrun", "--keep"]);
    assert_eq!(second.words(), ["nvcc", "-x", "cu", "-o", "k.o", "-c", "k.cu", "--keep-dir", "/t", "--dryrun", "--keep"]);
    assert_eq!(first.cwd(), "/w");
    assert!(read.dependencies().is_some_and(|rule| rule.words().ends_with(&words("-M -MF k.d -MT k.o"))), "{read:?}");
    assert_eq!((read.flag(), read.jobs(), read.keep_dir(), read.input()), ("-c", Some(2), None, "k.cu"));
    assert!(read.outputs().eq(["k.o", "k.d"]));
    let given = [Variable::new("A", "1"), Variable::new("NVCC_APPEND_FLAGS", "--keep-dir /k --keep -DX=1")];
    let kept = Call::new(&NvccCall { words: &words("-c k.cu"), variables: &given, ..call }).unwrap();
    assert_eq!((kept.dependencies(), kept.keep_dir()), (None, Some("/k")));
    assert!(kept.dry_runs()[1].words().contains(&"-DX=1".to_owned()), "{kept:?}");
    assert!(kept.dry_runs()[0].words().ends_with(&words("-c k.cu --keep-dir /k --keep -DX=1")), "{kept:?}");
    assert_eq!(kept.dry_runs()[0].environment(), [("A".to_owned(), "1".to_owned())]);
    let error = Call::new(&NvccCall { words: &words("-E k.cu"), ..call }).unwrap_err();
    assert_eq!((error.kind(), error.to_string().as_str()), (ErrorKind::ToNvcc, "goes to nvcc: its phase isn't split"));
    let odd = Call::new(&NvccCall { tmp: "/t$x".as_ref(), ..call }).unwrap_err();
    assert_eq!((odd.kind(), odd.place().map(|it| it.input)), (ErrorKind::OddDirectory, Some(Input::Tmp)));
}

#[test]
fn canonical_names() {
    let renamed = remap(&["cicc", "k.cpp1.ii", "-I=k.cpp1.ii", "k.gpu"], &[".gpu"]).unwrap();
    assert_eq!(renamed.iter().collect::<Vec<_>>(), ["cicc", "x_0.cpp1.ii", "-I=x_0.cpp1.ii", "x_0.gpu"]);
    assert_eq!(remap(&["a"], &["gpu"]).unwrap_err().kind(), ErrorKind::BadSuffixes);
}
