//! What caches say of hits and misses. ccache says it of each command, and so does the example cache of the
//! crate for Rust. sccache only counts what all its callers ask for.
use crate::run::{self, NoRule, Stopped};
use machine::folder::OWN;
use machine::jobs::{Job, Machine};
use machine::settings::{Settings, own_variable};
use machine::streams::content_of;
use machine::task::Task;
use serde::Deserialize;
use std::collections::BTreeMap;
use std::path::Path;

/// The variables by which caches get a file for what came of a command.
const FILES: [&str; 2] = ["CCACHE_STATSLOG", "CACHE_LOG"];

/// The file for what comes of the command of this number in the cache, if a log wants to know and the caller
/// has no such files.
pub fn file_of(number: usize, settings: &Settings, tmp: &str) -> Option<String> {
    let is_free = settings.log.is_some() && FILES.iter().all(|name| own_variable(name).is_none());
    is_free.then(|| format!("{tmp}/{OWN}/cache.{number}"))
}

/// The variables that give a cache this file.
pub fn variables_of(file: Option<&String>) -> impl Iterator<Item = (String, Option<String>)> {
    file.into_iter().flat_map(|file| FILES.map(|name| (name.to_owned(), Some(file.clone()))))
}

/// Whether the cache had what a command makes, if it has written that into this file.
pub fn had(file: &str) -> Option<bool> {
    content_of(Path::new(file)).ok().and_then(|said| is_hit(&String::from_utf8_lossy(&said)))
}

/// The same of what is in the file: counters as ccache has them, or lines `hit PROGRAM` and `miss PROGRAM`.
fn is_hit(said: &str) -> Option<bool> {
    said.lines().find_map(|line| match line.split(' ').next().unwrap_or_default() {
        "direct_cache_hit" | "preprocessed_cache_hit" | "hit" => Some(true),
        "cache_miss" | "miss" => Some(false),
        _ => None,
    })
}

/// How many hits and misses a cache has counted.
#[derive(Clone, Copy, PartialEq, Eq, Debug, Default)]
pub struct Counts {
    /// Commands that the cache had.
    pub hits: u64,
    /// Commands that it hadn't.
    pub misses: u64,
}

/// sccache's statistics, as far as they count here.
#[derive(Deserialize)]
struct Statistics {
    stats: Stats,
}

#[derive(Deserialize)]
struct Stats {
    cache_hits: ByLanguage,
    cache_misses: ByLanguage,
}

#[derive(Deserialize)]
struct ByLanguage {
    counts: BTreeMap<String, u64>,
}

/// The counts in sccache's statistics.
fn counts_in(statistics: &[u8]) -> Option<Counts> {
    let Statistics { stats } = serde_json::from_slice(statistics).ok()?;
    let sum = |those: &ByLanguage| those.counts.values().sum();
    Some(Counts { hits: sum(&stats.cache_hits), misses: sum(&stats.cache_misses) })
}

/// What sccache has counted until now, if the launcher is sccache and a log wants to know.
/// An error if a signal comes.
pub fn counts<M: Machine>(machine: &mut M, settings: &Settings) -> Result<Option<Counts>, Stopped> {
    let Some(sccache) =
        settings.launcher.first().filter(|name| settings.log.is_some() && name.contains("sccache"))
    else {
        return Ok(None);
    };
    let words = [sccache, "--show-stats", "--stats-format=json"].map(String::from);
    let variables = vec![("TMPDIR".into(), Some(settings.temporary.to_string_lossy().into_owned()))];
    let job = Job { words: words.into(), variables, ..Job::default() };
    let done = run::run(machine, &mut NoRule, &[Task { job, ..Task::default() }], 1)?;
    Ok(done.into_iter().find_map(|done| counts_in(&done.ended?.out)))
}

#[cfg(test)]
mod tests {
    use super::*;
    use crate::system::Status;
    use machine::jobs::{Early, Ended, Event};
    use std::io;

    #[test]
    fn caches_say_hits_and_misses() {
        let cases = [
            ("# k.cu\ndirect_cache_hit\nlocal_storage_hit\n", Some(true)),
            ("# k.cu\ndirect_cache_miss\npreprocessed_cache_hit\n", Some(true)),
            ("# cache_miss\ncache_miss\ndirect_cache_miss\n", Some(false)),
            ("# k.cu\nunsupported_compiler_option\n", None),
            ("miss cicc\n", Some(false)),
            ("hit ptxas\n", Some(true)),
            ("run gcc\n", None),
            ("", None),
        ];
        for (said, wanted) in cases {
            assert_eq!(is_hit(said), wanted, "{said}");
        }
        assert_eq!(had("/missing"), None);
    }

    /// A machine whose jobs print a text and end with a status.
    struct Fake {
        said: &'static str,
        code: i32,
        started: Vec<Job>,
        wants: bool,
    }

    impl Machine for Fake {
        fn want(&mut self, wants: bool) {
            self.wants = wants;
        }

        fn release(&mut self) {}

        fn plans(&mut self, _: bool) {}

        fn listen(&mut self, _: Option<usize>) {}

        fn early(&mut self) -> Option<&mut dyn Early> {
            None
        }

        fn next(&mut self) -> Event {
            if self.wants {
                return Event::Slot;
            }
            let status = Status { code: self.code, signal: None, dumped: false };
            Event::Ended(0, Ended { status, out: self.said.into(), errors: Vec::new(), times: (0.0, 0.0) })
        }

        fn start(&mut self, _: usize, job: &Job) -> io::Result<()> {
            self.started.push(job.clone());
            Ok(())
        }

        fn end_all(&mut self, _: i32) {}

        fn now(&self) -> f64 {
            0.0
        }
    }

    #[test]
    fn a_log_asks_for_what_the_cache_says() {
        let logs = Settings { log: Some("log".into()), ..Settings::default() };
        assert_eq!(file_of(3, &logs, "/t").as_deref(), Some("/t/zigrunk.tmp/cache.3"));
        assert_eq!(file_of(3, &Settings::default(), "/t"), None);
        let file = "f".to_owned();
        let given = |name: &str| (name.to_owned(), Some("f".to_owned()));
        assert_eq!(
            variables_of(Some(&file)).collect::<Vec<_>>(),
            [given("CCACHE_STATSLOG"), given("CACHE_LOG")]
        );
        assert_eq!(variables_of(None).count(), 0);
    }

    #[test]
    fn sccache_is_asked_for_its_counts_if_there_is_a_log() {
        let said = r#"{"stats":{"cache_hits":{"counts":{"CUDA":2}},"cache_misses":{"counts":{}}}}"#;
        let settings = |launcher: &str, log: Option<&str>| Settings {
            launcher: vec![launcher.into(), "x".into()],
            log: log.map(Into::into),
            temporary: "/t".into(),
            ..Settings::default()
        };
        let asked = |settings: &Settings, said| {
            let mut machine = Fake { said, code: 0, started: Vec::new(), wants: false };
            (counts(&mut machine, settings).unwrap(), machine.started)
        };
        let (counted, started) = asked(&settings("/b/sccache", Some("log")), said);
        assert_eq!(counted, Some(Counts { hits: 2, misses: 0 }));
        assert_eq!(started[0].words, ["/b/sccache", "--show-stats", "--stats-format=json"]);
        assert_eq!(
            (started.len(), started[0].variables.as_slice()),
            (1, &[("TMPDIR".to_owned(), Some("/t".to_owned()))][..])
        );
        assert_eq!(asked(&settings("/b/sccache", Some("log")), "no").0, None);
        for (launcher, log) in [("/b/sccache", None), ("ccache", Some("log"))] {
            assert_eq!(asked(&settings(launcher, log), said), (None, vec![]), "{launcher} {log:?}");
        }
    }

    #[test]
    fn sccache_counts_by_languages() {
        let said = br#"{"stats":{"compile_requests":9,"cache_hits":{"counts":{"CUDA":2,"PTX":3},"adv_counts":{}},"cache_misses":{"counts":{"CUDA":1}}},"cache_location":"x"}"#;
        assert_eq!(counts_in(said), Some(Counts { hits: 5, misses: 1 }));
        for said in [
            "",
            "{}",
            r#"{"stats":{"cache_hits":{"counts":{}}}}"#,
            r#"{"stats":{"cache_hits":{"counts":[]},"cache_misses":{"counts":{}}}}"#,
        ] {
            assert_eq!(counts_in(said.as_bytes()), None, "{said}");
        }
    }
}
