//! A log, and all that zigrunk report makes of it. The folder `report` has the log, and the texts as they
//! have to be: their numbers were worked out by hand, or compared with the log.
use std::fs;
use std::process::Command;

const LOG: &str = include_str!("report/log");

/// The first line that differs, with what it should be.
fn difference<'a>(got: &'a str, wanted: &'a str) -> Option<(&'a str, &'a str)> {
    let pairs = got.lines().map(Some).chain([None]).zip(wanted.lines().map(Some).chain([None]));
    pairs.map(|(got, wanted)| (got.unwrap_or("(the end)"), wanted.unwrap_or("(the end)"))).find(|(got, wanted)| got != wanted)
}

/// What zigrunk report prints of a log, the page and the trace.
fn made_of(log: &str, name: &str) -> [String; 3] {
    let folder = std::env::temp_dir().join(format!("zigrunk-report-{name}-{}", std::process::id()));
    fs::create_dir_all(&folder).unwrap();
    let file = |name: &str| folder.join(name);
    fs::write(file("log"), log).unwrap();
    let words = ["report".into(), file("log"), "--html".into(), file("page"), "--trace".into(), file("trace")];
    let made = Command::new(env!("CARGO_BIN_EXE_zigrunk-driver")).args(words).output().unwrap();
    assert!(made.status.success() && made.stderr.is_empty(), "{made:?}");
    let texts = [String::from_utf8(made.stdout).unwrap(), fs::read_to_string(file("page")).unwrap(), fs::read_to_string(file("trace")).unwrap()];
    fs::remove_dir_all(&folder).unwrap();
    texts
}

#[test]
fn a_log_has_a_summary_a_page_and_a_trace() {
    let [summary, page, trace] = made_of(LOG, "whole");
    assert_eq!(difference(&summary, include_str!("report/summary")), None);
    let (head, body) = page.split_at(page.find("<body>").unwrap());
    assert!(head.starts_with("<!DOCTYPE html>"));
    assert_eq!(difference(body, include_str!("report/page")), None);
    let value = |text: &str| serde_json::from_str::<serde_json::Value>(text).unwrap();
    assert_eq!(value(&trace), value(include_str!("report/trace")));
}

#[test]
fn a_log_whose_calls_take_no_time_has_numbers() {
    let line = r#"{"begin":5.0,"end":5.0,"status":0,"commands":[{"kind":"gcc -E","asked":5.0,"begin":5.0,"end":5.0,"status":0,"needs":[]}],"words":["nvcc"]}"#;
    let texts = made_of(&format!("{line}\n{line}\n"), "short");
    for text in &texts {
        assert!(!text.contains("NaN") && !text.contains("inf"), "{text}");
    }
    assert!(!texts[0].contains("hits") && texts[1].contains("<b>not in the log</b><span>cache hits / misses"), "{texts:?}");
}

#[test]
fn a_log_may_lack_calls_or_needs() {
    let [summary, page, _] = made_of("", "empty");
    assert_eq!(summary, "calls: 0, failed: 0\nsplit: 0 of 0\n");
    assert!(page.contains("<p class=\"note\">The log has no calls.</p>"), "{page}");
    let line = r#"{"begin":5.0,"end":6.0,"status":0,"commands":[{"kind":"gcc -E","asked":5.0,"begin":5.0,"end":5.5,"status":0}],"words":["nvcc"]}"#;
    let [_, page, _] = made_of(line, "needless");
    assert!(page.contains("<p class=\"note\">The log doesn't say what commands need.</p>"), "{page}");
}

#[test]
fn a_cache_that_nobody_has_asked_has_no_hits() {
    let line = r#"{"begin":5.0,"end":6.0,"status":0,"commands":[],"counted":[3,4,3,4],"words":["nvcc"]}"#;
    let [summary, page, _] = made_of(line, "unasked");
    assert!(summary.contains("hits: 0 of 0 (0 %)\n") && page.contains("<b>0 / 0</b><span>cache hits / misses"), "{summary}");
}
