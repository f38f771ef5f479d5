//! A log as a page for a browser. The page is one file: it takes nothing from elsewhere, and needs no
//! scripts.
use super::chains::{Link, longest_chain, own_seconds, seconds_of};
use super::log::{Log, number, sum};
use super::log_lines::{Call, Command};
use super::machines::{self, Work, megabytes};
use super::summary::{slowest, words_of};
use super::timeline::{Phase, drawing, target};
use std::collections::BTreeMap;
use std::fmt::Write;

/// How many rows a table of commands or sources has at most.
const ROWS: usize = 20;

const HEAD: &str = include_str!("page.html");

/// A text as the text of a page.
pub fn escaped(text: &str) -> String {
    text.replace('&', "&amp;").replace('<', "&lt;").replace('>', "&gt;").replace('"', "&quot;")
}

/// The page of a log.
pub fn page(log: &Log) -> String {
    let parts = [
        tiles(log),
        timeline(log),
        failures(log),
        reasons(log),
        phases(log),
        sources(log),
        commands(log),
        machines(log),
        own(log),
        chain(log),
        bad(log),
    ];
    format!("{HEAD}{}</main>\n</body>\n</html>\n", parts.concat())
}

fn section(title: &str, body: &str) -> String {
    if body.is_empty() { String::new() } else { format!("<section>\n<h2>{title}</h2>\n{body}</section>\n") }
}

fn note(text: &str) -> String {
    format!("<p class=\"note\">{}</p>\n", escaped(text))
}

/// A table with these heads, whose rows are cells of the page's text. Cells behind the first `texts` are
/// numbers.
fn table(heads: &[&str], texts: usize, rows: &[Vec<String>]) -> String {
    let cells = |row: &[String], tag: &str| -> String {
        let class = |at: usize| if at < texts { "" } else { " class=\"number\"" };
        row.iter()
            .enumerate()
            .map(|(at, cell)| format!("<{tag}{}>{cell}</{tag}>", class(at)))
            .collect::<Vec<_>>()
            .concat()
    };
    let head: Vec<String> = heads.iter().map(|head| escaped(head)).collect();
    let rows: Vec<String> = rows.iter().map(|row| format!("<tr>{}</tr>\n", cells(row, "td"))).collect();
    format!("<div class=\"wide\"><table>\n<tr>{}</tr>\n{}</table></div>\n", cells(&head, "th"), rows.concat())
}

/// A bar that is a part of a whole.
fn bar(part: f64, whole: f64) -> String {
    let percent = if whole > 0.0 { 100.0 * part / whole } else { 0.0 };
    format!("<span class=\"bar\"><span style=\"width:{percent:.1}%\"></span></span>")
}

fn seconds(seconds: f64) -> String {
    format!("{seconds:.2}&nbsp;s")
}

fn percent(part: usize, whole: usize) -> String {
    if whole == 0 { "none".into() } else { format!("{:.0} %", 100.0 * number(part) / number(whole)) }
}

fn tiles(log: &Log) -> String {
    let (begin, end) = log.span();
    let work = sum(log.commands().map(|(command, _)| command.seconds()));
    let failed = log.failed().count();
    let cache =
        log.hits().map_or_else(|| "not in the log".into(), |(hits, misses)| format!("{hits} / {misses}"));
    let at_once = if end > begin { work / (end - begin) } else { 0.0 };
    let tiles = [
        (log.calls.len().to_string(), format!("calls, {failed} failed")),
        (
            percent(log.split(), log.compiling()),
            format!("of the calls that compile were split: {} of {}", log.split(), log.compiling()),
        ),
        (log.commands().count().to_string(), "commands".into()),
        (format!("{:.1} s", end - begin), "first begin to last end".into()),
        (format!("{at_once:.1}"), "commands at once, on average".into()),
        (cache, "cache hits / misses".into()),
    ];
    let tile = |(value, name): &(String, String)| {
        format!("<div class=\"tile\"><b>{}</b><span>{}</span></div>\n", escaped(value), escaped(name))
    };
    format!("<div class=\"tiles\">\n{}</div>\n", tiles.iter().map(tile).collect::<String>())
}

fn timeline(log: &Log) -> String {
    if log.calls.is_empty() {
        return note("The log has no calls.");
    }
    let mut legend = String::new();
    for phase in Phase::ALL {
        let _ = write!(legend, "<span><i class=\"p{}\"></i>{}</span> ", phase as usize, phase.name());
    }
    section(
        "Slots in time",
        &format!(
            "<p class=\"legend\">{legend}<span><i class=\"bad\"></i>failed</span></p>\n{}",
            drawing(log, escaped)
        ),
    )
}

/// The calls that failed, first ones first.
fn failures(log: &Log) -> String {
    let row = |call: &Call| {
        vec![
            format!("<code>{}</code>", escaped(&words_of(call, 400))),
            call.status.to_string(),
            seconds(call.seconds()),
        ]
    };
    let rows: Vec<Vec<String>> = log.failed().take(ROWS).map(row).collect();
    if rows.is_empty() {
        String::new()
    } else {
        section("Failed calls", &table(&["Call", "Status", "Took"], 1, &rows))
    }
}

fn reasons(log: &Log) -> String {
    let whole = log.calls.len() - log.split();
    let row = |(reason, count): &(&str, usize)| {
        vec![escaped(reason), bar(number(*count), number(whole)), count.to_string()]
    };
    let rows: Vec<Vec<String>> = log.reasons().iter().map(row).collect();
    let hints: String = log.hints.iter().map(|hint| note(&format!("Hint: {hint}"))).collect();
    if rows.is_empty() && hints.is_empty() {
        return String::new();
    }
    section("Why nvcc made calls itself", &(table(&["Reason", "", "Calls"], 2, &rows) + &hints))
}

/// The seconds of each phase, for host code and for each target: its number, by which they are in order, and
/// its name.
fn phase_sums(log: &Log) -> BTreeMap<(u32, String), BTreeMap<Phase, f64>> {
    let mut sums: BTreeMap<(u32, String), BTreeMap<Phase, f64>> = BTreeMap::new();
    for (command, _) in log.commands() {
        let name = target(&command.kind).unwrap_or_default();
        let number = name.trim_end_matches(char::is_alphabetic).parse().unwrap_or_default();
        *sums.entry((number, name)).or_default().entry(Phase::of(&command.kind)).or_default() +=
            command.seconds();
    }
    sums
}

/// What each phase took, a row for host code and for each target.
fn phases(log: &Log) -> String {
    let sums = phase_sums(log);
    let all = sum(sums.values().flat_map(BTreeMap::values).copied());
    let most = sums.values().flat_map(BTreeMap::values).copied().fold(0.0, f64::max);
    let used: Vec<Phase> =
        Phase::ALL.into_iter().filter(|phase| sums.values().any(|row| row.contains_key(phase))).collect();
    let cell = |took: Option<&f64>| {
        took.map_or(String::new(), |&took| {
            format!(
                "<span class=\"heat\" style=\"--heat:{:.2}\">{}</span>",
                took / most.max(1e-9),
                seconds(took)
            )
        })
    };
    let row = |((_, name), row): (&(u32, String), &BTreeMap<Phase, f64>)| {
        let name =
            if name.is_empty() { "host and all targets".into() } else { format!("target {}", escaped(name)) };
        let own = sum(row.values().copied());
        let cells = used.iter().map(|phase| cell(row.get(phase)));
        [name]
            .into_iter()
            .chain(cells)
            .chain([format!("<b>{}</b>", seconds(own)), format!("{:.0}&nbsp;%", 100.0 * own / all.max(1e-9))])
            .collect::<Vec<String>>()
    };
    let rows: Vec<Vec<String>> = sums.iter().map(row).collect();
    let heads: Vec<&str> =
        [""].into_iter().chain(used.iter().map(|phase| phase.name())).chain(["All", "Share"]).collect();
    if rows.is_empty() {
        String::new()
    } else {
        section("Preprocessing and each target", &table(&heads, 1, &rows))
    }
}

/// The sources whose commands took longest.
fn sources(log: &Log) -> String {
    let mut sums: BTreeMap<&str, (usize, f64, f64)> = BTreeMap::new();
    for call in &log.calls {
        let work = if call.commands.is_empty() {
            call.seconds()
        } else {
            sum(call.commands.iter().map(Command::seconds))
        };
        let row = sums.entry(call.source()).or_default();
        *row = (row.0 + 1, row.1 + work, row.2.max(call.seconds()));
    }
    let mut sums: Vec<_> = sums.into_iter().collect();
    sums.sort_by(|one, other| other.1.1.total_cmp(&one.1.1));
    let most = sums.first().map_or(0.0, |(_, sum)| sum.1);
    let row = |(name, (count, work, longest)): &(&str, (usize, f64, f64))| {
        vec![
            format!("<code>{}</code>", escaped(name)),
            bar(*work, most),
            count.to_string(),
            seconds(*work),
            seconds(*longest),
        ]
    };
    let rows: Vec<Vec<String>> = sums.iter().take(ROWS).map(row).collect();
    if rows.is_empty() {
        String::new()
    } else {
        section(
            "Sources that took longest",
            &table(&["Source", "", "Calls", "Commands, in sum", "Longest call"], 2, &rows),
        )
    }
}

fn commands(log: &Log) -> String {
    let slowest = slowest(log, ROWS);
    let most = slowest.first().map_or(0.0, |(command, _)| command.seconds());
    let row = |(command, call): &(&Command, &Call)| {
        let source =
            format!("<code title=\"{}\">{}</code>", escaped(&words_of(call, 400)), escaped(call.source()));
        vec![
            source,
            escaped(&command.kind),
            bar(command.seconds(), most),
            seconds(command.seconds()),
            seconds(command.waited()),
        ]
    };
    let rows: Vec<Vec<String>> = slowest.iter().map(row).collect();
    if rows.is_empty() {
        String::new()
    } else {
        section("Slowest commands", &table(&["Source", "Command", "", "Ran", "Waited for a slot"], 3, &rows))
    }
}

/// The machines of commands by servers.
fn machines(log: &Log) -> String {
    let row = |((machine, server), work): (&(&str, &str), &Work)| {
        let names = [machine, server].map(|name| format!("<code>{}</code>", escaped(name)));
        let counts = [work.ran.to_string(), seconds(work.seconds), work.found.to_string()];
        [&names[..], &counts, &[work.sent, work.received].map(megabytes)].concat()
    };
    let rows: Vec<Vec<String>> = machines::machines(log).iter().map(row).collect();
    let heads = ["Machine", "Server", "Ran", "For", "Found", "MB sent", "MB received"];
    if rows.is_empty() {
        String::new()
    } else {
        section("Machines of commands by servers", &table(&heads, 2, &rows))
    }
}

/// What zigrunk itself took of the calls that were split.
fn own(log: &Log) -> String {
    let mut times: Vec<f64> = log.calls.iter().filter_map(own_seconds).collect();
    times.sort_by(f64::total_cmp);
    let Some(&most) = times.last() else { return String::new() };
    let split = sum(log.calls.iter().filter(|call| call.reason.is_none()).map(Call::seconds));
    let (all, waited) =
        (sum(times.iter().copied()), sum(log.commands().map(|(command, _)| command.waited())));
    let rows = [
        vec![
            "no command of the call ran or waited: dry runs and their wait for a slot, planning, the end"
                .into(),
            seconds(all),
            seconds(times[times.len() / 2]),
            seconds(most),
            format!("{:.1}&nbsp;%", 100.0 * all / split.max(1e-9)),
        ],
        vec![
            "commands waited for a slot, some at the same time".into(),
            seconds(waited),
            String::new(),
            String::new(),
            String::new(),
        ],
    ];
    section(
        "What zigrunk itself took",
        &table(&["While", "In sum", "Median of a call", "Most of a call", "Of split calls' time"], 1, &rows),
    )
}

/// The call that would take longest with a slot for each command.
fn chain(log: &Log) -> String {
    let split = log.calls.iter().filter(|call| !call.commands.is_empty());
    let chains = split.filter_map(|call| longest_chain(call).map(|chain| (call, seconds_of(&chain), chain)));
    let Some((call, length, chain)) = chains.max_by(|one, other| one.1.total_cmp(&other.1)) else {
        return if log.commands().next().is_some() {
            section("Longest chain", &note("The log doesn't say what commands need."))
        } else {
            String::new()
        };
    };
    let row = |link: &Link| {
        let command = &call.commands[link.command];
        vec![
            escaped(&command.kind),
            bar(link.seconds, length),
            seconds(link.seconds),
            seconds(command.seconds()),
            seconds(command.waited()),
        ]
    };
    let rows: Vec<Vec<String>> = chain.iter().map(row).collect();
    let text = format!(
        "{} took {:.2} s. Its commands that wait for each other take {length:.2} s: with any number of slots, the build takes at least that.",
        call.source(),
        call.seconds()
    );
    section(
        "Longest chain",
        &(note(&text)
            + &table(&["Command", "", "After the one above", "Ran", "Waited for a slot"], 2, &rows)),
    )
}

fn bad(log: &Log) -> String {
    if log.bad == 0 {
        String::new()
    } else {
        note(&format!("{} lines are no entries of such a log.", log.bad))
    }
}

#[cfg(test)]
mod tests {
    use super::*;
    use crate::small::{SMALL, small};

    #[test]
    fn a_page_says_what_the_log_says() {
        let page = page(&small());
        for part in [
            "<b>4</b><span>calls, 1 failed",
            "<b>67 %</b><span>of the calls that compile were split: 2 of 3",
            "<b>0 / 1</b><span>cache hits / misses",
            "<h2>Failed calls</h2>",
            "nvcc -c b.cu -DNAME",
            "a dry run fails",
            "Hint: do this",
            "target 80",
            "target 90",
            "<code>a.cu</code>",
            "1 lines are no entries",
            "a.cu took 4.00 s. Its commands that wait for each other take 3.00 s",
        ] {
            assert!(page.contains(part), "{part} is not in {page}");
        }
        assert_eq!(
            (page.matches("<rect").count(), page.matches("<svg").count(), page.matches("<section>").count()),
            (5, 1, page.matches("</section>").count())
        );
        assert!(!page.contains("<script") && !page.contains("http"), "it needs nothing from elsewhere");
    }

    #[test]
    fn tables_have_few_rows_and_bars_a_share() {
        let mut log = Log::default();
        for number in 0..30 {
            log.add(SMALL.lines().next().unwrap().replace("a.cu", &format!("{number}.cu")).as_bytes());
        }
        let tables: Vec<usize> = page(&log)
            .split("<table>")
            .skip(1)
            .map(|table| table.split("</table>").next().unwrap().matches("<tr>").count())
            .collect();
        assert_eq!(tables, [21, 2, 2, 21, 3], "heads count too");
        let width = |part, whole| {
            bar(part, whole).split("width:").nth(1).unwrap().split('%').next().unwrap().to_owned()
        };
        assert_eq!([width(1.0, 0.0), width(1.0, 4.0), width(0.0, 4.0)], ["0.0", "25.0", "0.0"]);
        assert_eq!([percent(1, 0), percent(1, 4), percent(0, 4)], ["none", "25 %", "0 %"]);
    }

    #[test]
    fn a_source_has_what_its_commands_took_or_else_its_calls() {
        let log = small();
        let rows: Vec<Vec<String>> = sources(&log)
            .split("<tr>")
            .skip(2)
            .map(|row| {
                row.split("<td")
                    .skip(1)
                    .map(|cell| cell.split('>').nth(1).unwrap().split('<').next().unwrap().to_owned())
                    .collect()
            })
            .collect();
        let [counts, work, longest] = [2, 3, 4].map(|at| {
            rows.iter().map(|row| row[at].trim_end_matches("&nbsp;s")).collect::<Vec<_>>().join(" ")
        });
        assert_eq!(sources(&log).matches("<code>").count(), 4);
        assert_eq!(
            (counts.as_str(), work.as_str(), longest.as_str()),
            ("1 1 1 1", "3.00 3.00 1.00 0.50", "4.00 3.00 1.00 0.50")
        );
    }

    #[test]
    fn what_zigrunk_took_has_a_sum_a_median_and_a_most() {
        let mut log = Log::default();
        for end in [3.25, 2.0, 2.5] {
            let command = r#"{"kind":"cicc","asked":0.25,"begin":0.5,"end":1.0,"status":0}"#;
            log.add(
                format!(r#"{{"begin":0,"end":{end},"status":0,"commands":[{command}],"words":[]}}"#)
                    .as_bytes(),
            );
        }
        let page = own(&log);
        let cells: Vec<&str> =
            page.split("<td").skip(1).filter_map(|cell| cell.split_once('>')?.1.split('<').next()).collect();
        assert_eq!(cells[1..5], ["5.50&nbsp;s", "1.75&nbsp;s", "2.50&nbsp;s", "71.0&nbsp;%"]);
        assert_eq!(cells[6..], ["0.75&nbsp;s", "", "", ""]);
    }

    #[test]
    fn a_long_call_is_cut() {
        let mut log = small();
        log.calls.truncate(1);
        log.calls[0].words = vec!["nvcc".into(), "-c".into(), format!("{}END", "é".repeat(391))];
        let title = commands(&log).split("title=\"").nth(1).unwrap().split('"').next().unwrap().to_owned();
        assert_eq!((title.chars().count(), title.ends_with("éE")), (400, true), "{title}");
    }

    #[test]
    fn texts_of_a_log_are_no_code_of_the_page() {
        let mut log = Log::default();
        log.add(SMALL.replace("a.cu", "<b>&amp;\\u0022.cu").replace("it links", "<script>").as_bytes());
        let page = page(&log);
        assert!(page.contains("&lt;b&gt;&amp;amp;&quot;.cu") && page.contains("&lt;script&gt;"));
        assert!(!page.contains("<script") && !page.contains("<b>&"));
    }

    #[test]
    fn sources_are_the_last_ones_named() {
        let call = |words: &str| Call {
            begin: 0.0,
            end: 0.0,
            status: 0,
            reason: None,
            compiles: true,
            commands: vec![],
            counted: None,
            words: words.split(' ').map(String::from).collect(),
        };
        for (words, wanted) in [
            ("nvcc -c d/a.cu -o a.o", "d/a.cu"),
            ("nvcc -Ix.cu a.o", "no source"),
            ("nvcc -c a.cpp b.cu", "b.cu"),
        ] {
            assert_eq!(call(words).source(), wanted, "{words}");
        }
        for suffix in ["cu", "c", "cc", "cpp", "cxx", "ptx", "ii", "gpu"] {
            assert_eq!(call(&format!("nvcc a.{suffix}")).source(), format!("a.{suffix}"));
        }
    }

    /// Numbers by a seed.
    struct Draw(u64);

    impl Draw {
        fn below(&mut self, most: u64) -> u64 {
            self.0 = self.0.wrapping_mul(6_364_136_223_846_793_005).wrapping_add(1_442_695_040_888_963_407);
            (self.0 >> 33) % most
        }
    }

    const KINDS: [(&str, Phase); 10] = [
        ("gcc -E", Phase::Preprocess),
        ("g++-12 -E __CUDA_ARCH__=800", Phase::Preprocess),
        ("cudafe++", Phase::HostFront),
        ("cicc compute_80", Phase::DeviceFront),
        ("cicc compute_100f", Phase::DeviceFront),
        ("ptxas sm_90a", Phase::Assemble),
        ("fatbinary", Phase::Join),
        ("gcc -S __CUDA_ARCH__=900", Phase::HostCompile),
        ("gcc -c __CUDA_ARCH__=900", Phase::HostCompile),
        ("nvcc", Phase::Whole),
    ];

    /// A drawn call's line, whose times are in tenths of milliseconds, and what it adds to each phase.
    /// Commands may begin before those end that they need, and even end before them.
    fn drawn_call(draw: &mut Draw, sums: &mut [u64; Phase::ALL.len()]) -> String {
        let begin = 10_000 + draw.below(50_000);
        let length = 1 + draw.below(90_000);
        let shown = |tick: u64| format!("{}.{:04}", tick / 10_000, tick % 10_000);
        let mut commands = Vec::new();
        for number in 0..draw.below(9) {
            let (kind, phase) = KINDS[usize::try_from(draw.below(10)).unwrap()];
            let from = begin + draw.below(length);
            let to = from + draw.below(begin + length - from + 1);
            let needs: Vec<String> =
                (0..number).filter(|_| draw.below(2) == 0).map(|need| need.to_string()).collect();
            sums[phase as usize] += to - from;
            let (asked, from, to, needs) = (shown(begin), shown(from), shown(to), needs.join(","));
            commands.push(format!(r#"{{"kind":"{kind}","asked":{asked},"begin":{from},"end":{to},"status":0,"needs":[{needs}]}}"#));
        }
        let (begin, end, commands) = (shown(begin), shown(begin + length), commands.join(","));
        format!(
            "{{\"begin\":{begin},\"end\":{end},\"status\":0,\"commands\":[{commands}],\"words\":[\"nvcc\",\"k.cu\"]}}\n"
        )
    }

    #[test]
    fn drawn_logs_have_chains_within_their_calls_and_columns_that_sum_up() {
        for seed in 0..1000 {
            let (mut draw, mut sums, mut log) = (Draw(seed), [0; Phase::ALL.len()], Log::default());
            for _ in 0..=draw.below(4) {
                assert!(log.add(drawn_call(&mut draw, &mut sums).as_bytes()));
            }
            for call in &log.calls {
                let chain = longest_chain(call).unwrap();
                let longest = call.commands.iter().map(Command::seconds).fold(0.0, f64::max);
                assert!(
                    (longest - 1e-6..=call.seconds() + 1e-6).contains(&seconds_of(&chain)),
                    "seed {seed}: {chain:?} of {call:?}"
                );
            }
            let rows = phase_sums(&log);
            for (phase, ticks) in Phase::ALL.into_iter().zip(sums) {
                let column = sum(rows.values().filter_map(|row| row.get(&phase)).copied());
                assert!(
                    (column * 10_000.0 - number(usize::try_from(ticks).unwrap())).abs() < 1.0,
                    "seed {seed}: {} has {column}",
                    phase.name()
                );
            }
        }
    }
}
