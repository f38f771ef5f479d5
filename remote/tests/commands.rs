//! Commands by a server that runs in this process.
mod fake;

use fake::{Fake, State};
use std::fs;
use std::io::{Read, Write};
use std::net::{Shutdown, SocketAddr, TcpListener, TcpStream};
use std::os::unix::fs::PermissionsExt;
use std::path::PathBuf;
use std::process::{Command, Output};
use std::sync::{Arc, Mutex};
use std::thread;
use tempfile::TempDir;
use tonic::transport::{Certificate, Identity, ServerTlsConfig};

/// A stand-in for ptxas: it changes its input to upper case, and says something. It notes each of its runs in
/// a folder.
const TOOL: &str = "#!/bin/sh\ncase $3 in *bad*) echo failed >&2; exit 3;; esac\n: > \"${0%/*}/ran-$$\"\ntr a-z A-Z < \"$3\" > \"$5\"\necho said\necho warned >&2\n";

/// A call's directory, and a tool.
struct Call {
    root: TempDir,
    tools: TempDir,
}

/// What a run came to: its status, what it said, what it wrote, and its note.
#[derive(PartialEq, Debug)]
struct Came {
    status: Option<i32>,
    out: String,
    errors: String,
    written: Option<Vec<u8>>,
    note: String,
}

impl Call {
    fn new() -> Call {
        Call::with(tempfile::tempdir().unwrap())
    }

    /// Another call with a tool that is there.
    fn with(tools: TempDir) -> Call {
        let call = Call { root: tempfile::tempdir().unwrap(), tools };
        fs::write(call.tool(), TOOL).unwrap();
        fs::set_permissions(call.tool(), fs::Permissions::from_mode(0o755)).unwrap();
        call.reads("k.ptx", b"some text");
        call
    }

    fn again(self) -> Call {
        Call::with(self.tools)
    }

    fn tool(&self) -> PathBuf {
        self.tools.path().join("ptxas")
    }

    fn path(&self, name: &str) -> String {
        self.root.path().join(name).to_str().unwrap().to_owned()
    }

    fn reads(&self, name: &str, text: &[u8]) {
        fs::write(self.path(name), text).unwrap();
    }

    /// How often the tool ran, here or at the server.
    fn runs(&self) -> usize {
        fs::read_dir(self.tools.path())
            .unwrap()
            .filter(|file| file.as_ref().unwrap().file_name().to_str().unwrap().starts_with("ran"))
            .count()
    }

    fn command(&self, input: &str, variables: &[(&str, &str)]) -> Output {
        let mut command = Command::new(env!("CARGO_BIN_EXE_zigrunk-remote"));
        let root = self.root.path().to_str().unwrap();
        command.args(["--cwd", "/", "--root", root, "--tool", "digest", "--note", &self.path("note")]);
        command.args(["--read", &self.path(input), "--write", &self.path("k.cubin"), "--"]).arg(self.tool());
        command
            .args(["-arch=sm_80", "-m64", &self.path(input), "-o", &self.path("k.cubin")])
            .envs(variables.iter().copied());
        command.output().unwrap()
    }

    fn came(&self, input: &str, variables: &[(&str, &str)]) -> Came {
        let _ = fs::remove_file(self.path("k.cubin"));
        let output = self.command(input, variables);
        let text = |bytes: Vec<u8>| String::from_utf8(bytes).unwrap();
        Came {
            status: output.status.code(),
            out: text(output.stdout),
            errors: text(output.stderr),
            written: fs::read(self.path("k.cubin")).ok(),
            note: fs::read_to_string(self.path("note")).unwrap_or_default(),
        }
    }

    /// Runs the command by these servers. It has to come to what it comes to here.
    fn runs_well(&self, servers: &str, usage: &str) -> String {
        let came = self.came("k.ptx", &[("ZIGRUNK_REMOTE", servers), ("ZIGRUNK_REMOTE_USE", usage)]);
        let wanted = Came {
            status: Some(0),
            out: "said\n".into(),
            errors: "warned\n".into(),
            written: Some(fs::read(self.path("k.ptx")).unwrap().to_ascii_uppercase()),
            note: came.note.clone(),
        };
        assert_eq!(came, wanted);
        came.note
    }
}

/// This machine's name.
fn here() -> String {
    fs::read_to_string("/proc/sys/kernel/hostname").unwrap().trim().to_owned()
}

fn name(server: &Fake) -> String {
    format!("grpc://{}", server.address)
}

#[test]
fn what_one_call_made_another_finds() {
    let (server, call) = (Fake::new(State::default()), Call::new());
    let (name, here) = (name(&server), here());
    assert!(call.runs_well(&name, "cache").starts_with(&format!("kept {name} {here} ")));
    let call = call.again();
    assert_eq!(
        (call.runs_well(&name, "cache"), call.runs()),
        (format!("found {name} {here} 0 9 \n"), 1),
        "nothing is sent"
    );
    call.reads("k.ptx", b"another text");
    assert!(call.runs_well(&name, "cache").starts_with("kept "));
}

#[test]
fn a_server_runs_commands() {
    let (server, call) = (Fake::new(State::default()), Call::new());
    let name = name(&server);
    assert!(call.runs_well(&name, "run").starts_with(&format!("ran {name} the_worker ")));
    assert!(server.state().calls.contains(&"execute"));
    let call = call.again();
    assert!(call.runs_well(&name, "run").starts_with(&format!("found {name} the_worker ")));
    assert_eq!((call.runs(), server.state().calls.iter().filter(|call| **call == "execute").count()), (1, 1));
}

#[test]
fn a_call_asks_once_what_a_server_can_do() {
    let (server, call) = (Fake::new(State::default()), Call::new());
    for text in ["one", "another", "one"] {
        call.reads("k.ptx", text.as_bytes());
        call.runs_well(&name(&server), "run");
    }
    let calls = server.state().calls.clone();
    let count = |wanted| calls.iter().filter(|call| **call == wanted).count();
    assert_eq!((count("capabilities"), count("result"), count("execute")), (1, 3, 2));
}

#[test]
fn large_contents_go_in_streams() {
    let (server, call) = (Fake::new(State::default()), Call::new());
    call.reads("k.ptx", &b"some text\n".repeat(500_000));
    assert!(call.runs_well(&name(&server), "run").starts_with("ran "));
    assert!(["write stream", "read stream"].iter().all(|name| server.state().calls.contains(name)));
}

#[cfg(feature = "zstd")]
#[test]
fn contents_travel_compressed_to_and_from_a_server_that_can_that() {
    for (lines, most) in [(5_000, 10_000), (500_000, 100_000)] {
        let state = State { has_zstd: true, ..State::default() };
        let (server, call) = (Fake::new(state), Call::new());
        let text = b"some text\n".repeat(lines);
        call.reads("k.ptx", &text);
        let bytes = |note: &str| {
            note.split(' ').skip(3).take(2).map(|word| word.parse::<usize>().unwrap()).sum::<usize>()
        };
        assert!(bytes(&call.runs_well(&name(&server), "run")) < most);
        let call = call.again();
        call.reads("k.ptx", &text);
        let note = call.runs_well(&name(&server), "cache");
        assert!(
            note.starts_with("found ") && bytes(&note) < most && server.state().compressed == 3,
            "{note}"
        );
        server.state().spoils = true;
        assert!(call.runs_well(&name(&server), "cache").starts_with("kept "));
    }
}

/// What goes over a connection to a server, both ways.
struct Listener {
    address: SocketAddr,
    heard: Arc<Mutex<Vec<u8>>>,
}

impl Listener {
    fn new(server: SocketAddr) -> Listener {
        let socket = TcpListener::bind("127.0.0.1:0").unwrap();
        let (address, heard) = (socket.local_addr().unwrap(), Arc::new(Mutex::new(Vec::new())));
        let all = heard.clone();
        thread::spawn(move || {
            for client in socket.incoming() {
                let (client, server) = (client.unwrap(), TcpStream::connect(server).unwrap());
                let (back, forth) = (server.try_clone().unwrap(), client.try_clone().unwrap());
                for (from, to) in [(client, server), (back, forth)] {
                    let all = all.clone();
                    thread::spawn(move || pass_on(from, to, &all));
                }
            }
        });
        Listener { address, heard }
    }

    fn hears(&self, text: &str) -> bool {
        self.heard.lock().unwrap().windows(text.len()).any(|part| part == text.as_bytes())
    }
}

/// Passes on what comes, to the end, and keeps it.
fn pass_on(mut from: TcpStream, mut to: TcpStream, all: &Mutex<Vec<u8>>) {
    let mut part = [0; 4096];
    while let Ok(size @ 1..) = from.read(&mut part) {
        all.lock().unwrap().extend(&part[..size]);
        if to.write_all(&part[..size]).is_err() {
            break;
        }
    }
    let _ = to.shutdown(Shutdown::Write);
}

/// What shows in a connection without TLS: a word, a content, what it makes, and a message's name.
const SHOWN: [&str; 4] = ["-arch=sm_80", "some text", "SOME TEXT", "k.cubin"];

#[test]
fn a_listener_sees_no_word_or_content() {
    let (server, call) = (Fake::new(State::default()), Call::new());
    let listener = Listener::new(server.address);
    assert!(call.runs_well(&format!("grpc://{}", listener.address), "run").starts_with("ran "));
    for text in SHOWN {
        assert!(listener.hears(text), "without TLS {text} shows");
    }
    let certificates = Certificates::new();
    let server = certificates.server(State { token: Some("secret".into()), ..State::default() });
    let listener = Listener::new(server.address);
    let note = certificates.note(listener.address, "ca", Some("user"), Some("secret"));
    assert!(note.starts_with("kept grpcs://") && !listener.heard.lock().unwrap().is_empty(), "{note}");
    for text in SHOWN.into_iter().chain(["secret", "google", "bazel"]) {
        assert!(!listener.hears(text), "{text}");
    }
}

#[test]
fn all_calls_are_for_the_instance_that_is_asked_for() {
    for text in [b"some text\n".repeat(10), b"some text\n".repeat(500_000)] {
        let server = Fake::new(State::default());
        let mut call = Call::new();
        for usage in ["run", "cache", "cache"] {
            call.reads("k.ptx", &text);
            let name = name(&server);
            let variables = [
                ("ZIGRUNK_REMOTE", name.as_str()),
                ("ZIGRUNK_REMOTE_USE", usage),
                ("ZIGRUNK_REMOTE_INSTANCE", "team/main"),
            ];
            assert_eq!(call.came("k.ptx", &variables).status, Some(0));
            server.state().results.retain(|_, _| usage == "run");
            call = call.again();
        }
        assert_eq!(server.state().instances.iter().collect::<Vec<_>>(), ["team/main"]);
        for wanted in ["execute", "keep", "result", "missing"] {
            assert!(server.state().calls.contains(&wanted), "{wanted}");
        }
    }
}

#[test]
fn what_fails_at_a_server_runs_here() {
    let (server, call) = (Fake::new(State { lacks_tools: true, ..State::default() }), Call::new());
    assert!(call.runs_well(&name(&server), "run").starts_with(&format!("home - {} 0 0 grpc://", here())));
    call.reads("bad.ptx", b"");
    let name = name(&server);
    for usage in ["cache", "run"] {
        let came = call.came("bad.ptx", &[("ZIGRUNK_REMOTE", &name), ("ZIGRUNK_REMOTE_USE", usage)]);
        assert_eq!((came.status, came.errors.as_str()), (Some(3), "failed\n"), "{usage}");
    }
    assert!(server.state().results.is_empty(), "what failed isn't kept");
}

/// What a server of this kind has a command say, with and without falling back.
fn refused(state: State, usage: &str) -> String {
    let (server, call) = (Fake::new(state), Call::new());
    let name = name(&server);
    let note = call.runs_well(&name, usage);
    assert!(note.starts_with("home ") || note.starts_with("kept "), "{note}");
    let variables =
        [("ZIGRUNK_REMOTE", name.as_str()), ("ZIGRUNK_REMOTE_USE", usage), ("ZIGRUNK_REMOTE_FALLBACK", "no")];
    let came = call.again().came("k.ptx", &variables);
    if came.status == Some(0) { note } else { came.errors }
}

#[test]
fn each_refusal_says_what_to_do() {
    let state = State::default;
    let cases = [
        (State { executes: false, ..state() }, "run", "set ZIGRUNK_REMOTE_USE=cache"),
        (State { is_full: true, ..state() }, "run", "its storage is full"),
        (State { is_full: true, ..state() }, "cache", "its storage is full"),
        (State { takes_results: false, ..state() }, "cache", "home grpc://"),
        (State { token: Some("other".into()), ..state() }, "cache", "ask for a new token"),
        (State { spoils: true, ..state() }, "run", "it sent another content than"),
    ];
    for (state, usage, wanted) in cases {
        let said = refused(state, usage);
        assert!(said.contains(wanted), "{said}");
    }
}

#[test]
fn a_server_that_is_not_there_is_asked_once_a_call() {
    let call = Call::new();
    let gone = "grpc://127.0.0.1:1";
    assert!(call.runs_well(gone, "cache").contains("cannot be reached"));
    assert!(call.runs_well(gone, "cache").contains("a moment ago"));
    let came = call.came("k.ptx", &[("ZIGRUNK_REMOTE", gone), ("ZIGRUNK_REMOTE_FALLBACK", "no")]);
    assert_eq!((came.status, came.written), (Some(125), None));
}

#[test]
fn another_server_takes_the_place_of_one_that_is_not_there() {
    let (server, call) = (Fake::new(State::default()), Call::new());
    let servers = format!("grpc://127.0.0.1:1 {}", name(&server));
    for text in 0..8 {
        call.reads("k.ptx", format!("text {text}").as_bytes());
        assert!(call.runs_well(&servers, "cache").starts_with("kept "));
    }
}

#[test]
fn what_is_spoilt_or_gone_counts_as_nothing() {
    let (server, call) = (Fake::new(State::default()), Call::new());
    call.runs_well(&name(&server), "cache");
    server.state().spoils = true;
    assert!(call.runs_well(&name(&server), "cache").starts_with("kept "));
    server.state().spoils = false;
    server.state().contents.clear();
    assert!(call.runs_well(&name(&server), "cache").starts_with("kept "));
    assert!(call.runs_well(&name(&server), "cache").starts_with("found "));
    server.state().results.values_mut().for_each(|result| result.output_files.clear());
    assert!(
        call.runs_well(&name(&server), "cache").starts_with("kept "),
        "a result without an output is none"
    );
}

#[test]
fn commands_that_are_no_actions_go_to_no_server() {
    let (server, call) = (Fake::new(State::default()), Call::new());
    let output = Command::new(env!("CARGO_BIN_EXE_zigrunk-remote"))
        .args([
            "--cwd",
            "/",
            "--root",
            "/t",
            "--tool",
            "d",
            "--note",
            &call.path("note"),
            "--",
            "/bin/echo",
            "a b",
        ])
        .env("ZIGRUNK_REMOTE", name(&server))
        .output()
        .unwrap();
    assert_eq!((output.stdout.as_slice(), output.status.code()), (b"a b\n".as_slice(), Some(0)));
    assert!(fs::read_to_string(call.path("note")).unwrap().contains("none of nvcc's tools"));
    assert!(server.state().calls.is_empty());
}

/// What openssl puts into certificates.
const CONFIG: &str = "[req]\ndistinguished_name = names\n[names]\n[authority]\nbasicConstraints = critical, CA:TRUE\n\
    [holder]\nbasicConstraints = critical, CA:FALSE\nsubjectAltName = IP:127.0.0.1\n";

/// An authority with certificates for a server here and for a user, and another authority's for the user.
struct Certificates(TempDir);

impl Certificates {
    fn new() -> Certificates {
        let certificates = Certificates(tempfile::tempdir().unwrap());
        fs::write(certificates.path("config"), CONFIG).unwrap();
        for (authority, holders) in [("ca", &["server", "user"][..]), ("other", &["stranger"])] {
            certificates.request(authority, &["-extensions", "authority"]);
            let (signer, key) = (
                certificates.path(&format!("{authority}.pem")),
                certificates.path(&format!("{authority}.key")),
            );
            for holder in holders {
                certificates.request(holder, &["-extensions", "holder", "-CA", &signer, "-CAkey", &key]);
            }
        }
        certificates
    }

    fn path(&self, name: &str) -> String {
        self.0.path().join(name).to_str().unwrap().to_owned()
    }

    fn request(&self, name: &str, words: &[&str]) {
        let (certificate, key) = (self.path(&format!("{name}.pem")), self.path(&format!("{name}.key")));
        let kind = [
            "req",
            "-x509",
            "-subj",
            "/CN=name",
            "-newkey",
            "ec",
            "-pkeyopt",
            "ec_paramgen_curve:P-256",
            "-nodes",
            "-days",
            "2",
        ];
        let places = ["-config", &self.path("config"), "-out", &certificate, "-keyout", &key];
        let made = Command::new("openssl").args(kind).args(places).args(words).output().unwrap();
        assert!(made.status.success(), "{}", String::from_utf8_lossy(&made.stderr));
    }

    /// A server that has its certificate, and wants to see the user's.
    fn server(&self, state: State) -> Fake {
        let read = |name: &str| fs::read(self.path(name)).unwrap();
        let identity = Identity::from_pem(read("server.pem"), read("server.key"));
        Fake::with_tls(
            state,
            Some(
                ServerTlsConfig::new()
                    .identity(identity)
                    .client_ca_root(Certificate::from_pem(read("ca.pem"))),
            ),
        )
    }

    /// How a command goes by a server, given whom it trusts, whose certificate it shows, and its token. It
    /// says why it went by none.
    fn note(&self, server: SocketAddr, authority: &str, user: Option<&str>, token: Option<&str>) -> String {
        let (call, server) = (Call::new(), format!("grpcs://{server}"));
        let [authority, token_file] =
            [format!("{authority}.pem"), "token".into()].map(|name: String| self.path(&name));
        let identity =
            user.map(|user| [self.path(&format!("{user}.pem")), self.path(&format!("{user}.key"))]);
        let mut variables = vec![("ZIGRUNK_REMOTE", server.as_str()), ("ZIGRUNK_REMOTE_CA", &authority)];
        if let Some([certificate, key]) = &identity {
            variables
                .extend([("ZIGRUNK_REMOTE_CERTIFICATE", certificate.as_str()), ("ZIGRUNK_REMOTE_KEY", key)]);
        }
        if let Some(token) = token {
            fs::write(&token_file, format!("{token}\n")).unwrap();
            variables.push(("ZIGRUNK_REMOTE_TOKEN", &token_file));
        }
        let came = call.came("k.ptx", &variables);
        assert_eq!((came.status, came.written), (Some(0), Some(b"SOME TEXT".to_vec())));
        came.note
    }
}

#[test]
fn nothing_goes_to_or_from_a_stranger() {
    let certificates = Certificates::new();
    let server = certificates.server(State { token: Some("secret".into()), ..State::default() });
    let note = |authority: &str, user: Option<&str>, token| {
        certificates.note(server.address, authority, user, token)
    };
    for (authority, user, wanted) in [
        ("other", Some("user"), "certificate"),
        ("ca", None, "certificate"),
        ("ca", Some("stranger"), "certificate"),
    ] {
        let said = note(authority, user, Some("secret"));
        assert!(said.starts_with("home ") && said.contains(wanted), "{said}");
        assert!(server.state().calls.is_empty(), "{authority} {user:?}");
    }
    for token in [Some("old"), None] {
        let said = note("ca", Some("user"), token);
        assert!(said.contains("ask for a new token"), "{said}");
    }
    assert!(server.state().contents.is_empty());
    assert!(note("ca", Some("user"), Some("secret")).starts_with("kept grpcs://"));
}

/// Commands by two servers that fail by the numbers of a seed.
fn with_faults(seed: u64) {
    let state = || State { fails_one_of: 3 + seed % 5, lot: fake::Lot(seed), ..State::default() };
    let (one, other, call) = (Fake::new(state()), Fake::new(state()), Call::new());
    let servers = format!("{} {}", name(&one), name(&other));
    for turn in 0..4 {
        call.reads("k.ptx", &b"a text\n".repeat(if turn == 2 { 700_000 } else { 1 }));
        let note = call.runs_well(&servers, if (seed + turn) % 2 == 0 { "run" } else { "cache" });
        assert!(!note.is_empty(), "seed {seed}, turn {turn}");
    }
}

/// Each command comes to what it comes to here. `SEEDS` says how many seeds are tried, by default 12.
#[test]
fn whatever_fails_nothing_wrong_comes_of_it() {
    let seeds: u64 = std::env::var("SEEDS").ok().and_then(|seeds| seeds.parse().ok()).unwrap_or(12);
    let tried: Vec<_> = (0..seeds).map(|seed| thread::spawn(move || with_faults(seed))).collect();
    for (seed, tried) in tried.into_iter().enumerate() {
        assert!(tried.join().is_ok(), "seed {seed}");
    }
}
