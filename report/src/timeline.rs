//! The commands of a log in time, a row for each that ran at once.
use super::log::{Log, number};
use super::log_lines::Call;
use std::fmt::Write;

/// How wide the drawing is, in pixels, and how high a row is at most.
const WIDTH: f64 = 1160.0;
const HIGHEST_ROW: f64 = 18.0;
/// How high all rows are at most.
const HEIGHT: f64 = 640.0;
/// What is narrower is drawn with its neighbours, since nobody would see it, and a long log has many such.
const NARROW: f64 = 1.5;

/// What a command does.
#[derive(Clone, Copy, PartialEq, Eq, PartialOrd, Ord, Debug)]
pub enum Phase {
    Preprocess,
    HostFront,
    DeviceFront,
    Assemble,
    Join,
    HostCompile,
    /// A call that nvcc made, or anything else.
    Whole,
}

impl Phase {
    pub const ALL: [Phase; 7] = [
        Phase::Preprocess,
        Phase::HostFront,
        Phase::DeviceFront,
        Phase::Assemble,
        Phase::Join,
        Phase::HostCompile,
        Phase::Whole,
    ];

    /// That of a command's kind.
    pub fn of(kind: &str) -> Phase {
        let mut words = kind.split(' ');
        match (words.next().unwrap_or_default(), words.next()) {
            ("cudafe++", _) => Phase::HostFront,
            ("cicc", _) => Phase::DeviceFront,
            ("ptxas", _) => Phase::Assemble,
            ("fatbinary" | "nvlink", _) => Phase::Join,
            (_, Some("-E")) => Phase::Preprocess,
            (_, Some("-c" | "-S")) => Phase::HostCompile,
            _ => Phase::Whole,
        }
    }

    pub fn name(self) -> &'static str {
        ["preprocess", "cudafe++", "cicc", "ptxas", "fatbinary", "host compile", "nvcc, others"]
            [self as usize]
    }
}

/// The target of a command's kind, as `80` or `90a`; nothing for host code.
pub fn target(kind: &str) -> Option<String> {
    if !matches!(Phase::of(kind), Phase::Preprocess | Phase::DeviceFront | Phase::Assemble) {
        return None;
    }
    let named = kind.rsplit(' ').next().unwrap_or_default();
    if let Some(number) = named.strip_prefix("__CUDA_ARCH__=") {
        return Some(number.strip_suffix('0').unwrap_or(number).to_owned());
    }
    ["sm_", "compute_", "lto_"].iter().find_map(|prefix| named.strip_prefix(prefix)).map(String::from)
}

/// A command, or a call that nvcc made, in its row.
#[derive(Clone, Debug)]
pub struct Bar<'a> {
    pub row: usize,
    pub kind: &'a str,
    pub call: &'a Call,
    pub begin: f64,
    pub end: f64,
    pub status: i64,
}

impl Bar<'_> {
    pub fn seconds(&self) -> f64 {
        (self.end - self.begin).max(0.0)
    }
}

/// The bars of a log by their begin. Those that overlap are in different rows.
pub fn bars(log: &Log) -> Vec<Bar<'_>> {
    let of_commands = log.commands().map(|(command, call)| Bar {
        row: 0,
        kind: &command.kind,
        call,
        begin: command.begin,
        end: command.end,
        status: command.status,
    });
    let whole = log.calls.iter().filter(|call| call.commands.is_empty());
    let of_nvcc = whole.map(|call| Bar {
        row: 0,
        kind: "nvcc",
        call,
        begin: call.begin,
        end: call.end,
        status: call.status,
    });
    let mut bars: Vec<Bar<'_>> = of_commands.chain(of_nvcc).collect();
    bars.sort_by(|one, other| one.begin.total_cmp(&other.begin));
    let mut ends: Vec<f64> = Vec::new();
    for bar in &mut bars {
        bar.row = ends.iter().position(|&end| end <= bar.begin).unwrap_or(ends.len());
        if bar.row == ends.len() {
            ends.push(bar.end);
        }
        ends[bar.row] = bar.end;
    }
    bars
}

/// What is drawn as one: a bar, or several narrow ones beside each other.
struct Drawn {
    from: f64,
    to: f64,
    row: usize,
    seconds: [f64; Phase::ALL.len()],
    count: usize,
    failed: bool,
    title: String,
}

impl Drawn {
    fn new(bar: &Bar<'_>, begin: f64, scale: f64) -> Drawn {
        let from = (bar.begin - begin) * scale;
        let title =
            format!("{:.2} s  {}  of  {}", bar.seconds(), bar.kind, super::summary::words_of(bar.call, 160));
        let mut drawn = Drawn {
            from,
            to: from + bar.seconds() * scale,
            row: bar.row,
            seconds: [0.0; Phase::ALL.len()],
            count: 1,
            failed: bar.status != 0,
            title,
        };
        drawn.seconds[Phase::of(bar.kind) as usize] = bar.seconds();
        drawn
    }

    /// Takes the next one of the row in, if both are narrow.
    fn takes(&mut self, next: &Drawn) -> bool {
        let both = next.row == self.row && next.to - next.from < NARROW && next.to - self.from < 2.0 * NARROW;
        if both {
            self.to = self.to.max(next.to);
            self.count += next.count;
            self.failed |= next.failed;
            for (sum, seconds) in self.seconds.iter_mut().zip(next.seconds) {
                *sum += seconds;
            }
            self.title = format!("{} commands", self.count);
        }
        both
    }

    /// The phase that took most of it.
    fn phase(&self) -> usize {
        (0..self.seconds.len())
            .rev()
            .max_by(|&one, &other| self.seconds[one].total_cmp(&self.seconds[other]))
            .unwrap_or_default()
    }
}

/// What is drawn of bars, row by row.
fn drawn(mut bars: Vec<Bar<'_>>, begin: f64, scale: f64) -> Vec<Drawn> {
    bars.sort_by(|one, other| one.row.cmp(&other.row).then(one.begin.total_cmp(&other.begin)));
    let mut drawn: Vec<Drawn> = Vec::new();
    for next in bars.iter().map(|bar| Drawn::new(bar, begin, scale)) {
        if !drawn.last_mut().is_some_and(|last| last.takes(&next)) {
            drawn.push(next);
        }
    }
    drawn
}

/// The distance of marks on an axis of so many seconds: at most twelve of them.
fn step(seconds: f64) -> f64 {
    let mut step = 0.001;
    for factor in [2.0, 2.5, 2.0].into_iter().cycle().take(60) {
        if seconds / step <= 12.0 {
            break;
        }
        step *= factor;
    }
    step
}

/// The drawing, as SVG. `escaped` makes a text one of the page.
pub fn drawing(log: &Log, escaped: fn(&str) -> String) -> String {
    let (begin, end) = log.span();
    let seconds = (end - begin).max(0.001);
    let bars = bars(log);
    let rows = bars.iter().map(|bar| bar.row + 1).max().unwrap_or_default();
    let height = (HEIGHT / number(rows.max(1))).clamp(1.0, HIGHEST_ROW);
    let bottom = height * number(rows);
    let mut svg = format!(
        "<svg class=\"time\" viewBox=\"0 0 {WIDTH} {:.0}\" role=\"img\" aria-label=\"commands in time\">\n",
        bottom + 22.0
    );
    let mut at = 0.0;
    while at <= seconds {
        let x = at / seconds * WIDTH;
        let anchor = if x < 1.0 {
            "start"
        } else if x > WIDTH - 30.0 {
            "end"
        } else {
            "middle"
        };
        let digits = if step(seconds) < 0.1 { 2 } else { usize::from(step(seconds) < 1.0) };
        let _ = writeln!(
            svg,
            "<path class=\"mark\" d=\"M{x:.1} 0V{:.1}\"/><text x=\"{x:.1}\" y=\"{:.1}\" text-anchor=\"{anchor}\">{at:.digits$} s</text>",
            bottom + 4.0,
            bottom + 18.0
        );
        at += step(seconds);
    }
    for it in drawn(bars, begin, WIDTH / seconds) {
        let class = format!("p{}{}", it.phase(), if it.failed { " bad" } else { "" });
        let (y, width) = (number(it.row) * height, (it.to - it.from).max(0.4));
        let _ = writeln!(
            svg,
            "<rect class=\"{class}\" x=\"{:.1}\" y=\"{y:.1}\" width=\"{width:.1}\" height=\"{:.1}\"><title>{}</title></rect>",
            it.from,
            height * 0.88,
            escaped(&it.title)
        );
    }
    svg + "</svg>\n"
}

#[cfg(test)]
mod tests {
    use super::*;
    use crate::small::small;

    #[test]
    fn kinds_have_phases_and_targets() {
        let cases = [
            ("gcc -E", Phase::Preprocess, None),
            ("g++-12 -E __CUDA_ARCH__=800", Phase::Preprocess, Some("80")),
            ("gcc -E __CUDA_ARCH__=1000", Phase::Preprocess, Some("100")),
            ("cudafe++", Phase::HostFront, None),
            ("cicc compute_80", Phase::DeviceFront, Some("80")),
            ("cicc lto_90", Phase::DeviceFront, Some("90")),
            ("ptxas sm_90a", Phase::Assemble, Some("90a")),
            ("fatbinary", Phase::Join, None),
            ("gcc -c __CUDA_ARCH__=900", Phase::HostCompile, None),
            ("g++-12 -S __CUDA_ARCH__=900", Phase::HostCompile, None),
            ("nvcc -M", Phase::Whole, None),
            ("", Phase::Whole, None),
        ];
        for (kind, phase, named) in cases {
            assert_eq!((Phase::of(kind), target(kind).as_deref()), (phase, named), "{kind}");
        }
    }

    #[test]
    fn bars_that_overlap_have_different_rows() {
        let log = small();
        let rows: Vec<(usize, &str, f64)> =
            bars(&log).iter().map(|bar| (bar.row, bar.kind, bar.begin)).collect();
        assert_eq!(
            rows,
            [
                (0, "gcc -E", 10.5),
                (0, "cicc compute_90", 12.0),
                (1, "cicc compute_80", 12.0),
                (0, "nvcc", 15.0),
                (1, "nvcc", 15.0)
            ]
        );
    }

    #[test]
    fn a_long_log_has_a_small_drawing() {
        let mut log = Log::default();
        for number in 0..20_000 {
            let begin = f64::from(number) / 100.0;
            log.add(
                format!(
                    r#"{{"begin":{begin},"end":{},"status":0,"reason":"x","commands":[],"words":[]}}"#,
                    begin + 0.02
                )
                .as_bytes(),
            );
        }
        let svg = drawing(&log, str::to_owned);
        assert!(svg.matches("<rect").count() < 3000 && svg.contains(" commands</title>"));
    }

    #[test]
    fn a_short_command_shows_in_a_long_log() {
        let mut log = Log::default();
        for (begin, end) in [(0.0, 1000.0), (500.0, 500.001)] {
            log.add(
                format!(
                    r#"{{"begin":{begin},"end":{end},"status":0,"reason":"x","commands":[],"words":[]}}"#
                )
                .as_bytes(),
            );
        }
        let svg = drawing(&log, str::to_owned);
        let attribute = |name: &str| {
            svg.split("<rect")
                .skip(1)
                .map(|bar| {
                    bar.split(&format!(" {name}=\"")).nth(1).unwrap().split('"').next().unwrap().to_owned()
                })
                .collect::<Vec<_>>()
        };
        assert_eq!(attribute("width").last().map(String::as_str), Some("0.4"), "{svg}");
        assert_eq!(attribute("x"), ["0.0", &format!("{:.1}", WIDTH / 2.0)]);
    }

    #[test]
    fn narrow_bars_have_the_phase_that_took_most_or_the_first_one() {
        let log = small();
        let bar = |kind: &'static str, begin: f64, end: f64| Bar {
            row: 0,
            kind,
            call: &log.calls[0],
            begin,
            end,
            status: 0,
        };
        let phase = |last: f64| {
            let drawn = drawn(
                vec![
                    bar("cicc compute_80", 0.0, 2.0),
                    bar("ptxas sm_80", 2.0, 3.0),
                    bar("ptxas sm_90", 3.0, last),
                ],
                0.0,
                0.01,
            );
            assert_eq!((drawn.len(), drawn[0].title.as_str()), (1, "3 commands"));
            drawn[0].phase()
        };
        assert_eq!(
            [3.5, 4.0, 4.5].map(phase),
            [Phase::DeviceFront, Phase::DeviceFront, Phase::Assemble].map(|phase| phase as usize)
        );
    }

    #[test]
    fn a_bar_names_so_much_of_its_call() {
        let mut log = small();
        log.calls.truncate(1);
        log.calls[0].words = vec!["x".repeat(159), "yz".into()];
        let bars = bars(&log);
        let title = Drawn::new(&bars[0], 0.0, 1.0).title;
        assert!(title.ends_with(&format!("  of  {} ", "x".repeat(159))), "{title}");
    }

    #[test]
    fn an_axis_has_few_marks() {
        let steps = [0.5, 1.0, 11.0, 60.0, 3600.0, 1e7].map(step);
        for (seconds, step) in [0.5, 1.0, 11.0, 60.0, 3600.0, 1e7].iter().zip(steps) {
            assert!((4.0..=12.0).contains(&(seconds / step)), "{seconds} by {step}");
        }
    }
}
