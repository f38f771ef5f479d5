//! A log as a trace for Chrome's viewer and Perfetto.
use super::log::Log;
use super::timeline::{Bar, bars};
use serde_json::{Value, json};

/// Microseconds, to a tenth.
fn microseconds(seconds: f64) -> f64 {
    (seconds * 1e7).round() / 10.0
}

fn event(bar: &Bar<'_>) -> Value {
    json!({
        "name": bar.kind,
        "ph": "X",
        "pid": 1,
        "tid": bar.row,
        "ts": microseconds(bar.begin),
        "dur": microseconds(bar.seconds()),
        "args": { "call": bar.call.words.join(" "), "status": bar.status },
    })
}

/// The events of Chrome's trace format. Commands that overlap are in different rows.
pub fn trace(log: &Log) -> String {
    let events: Vec<Value> = bars(log).iter().map(event).collect();
    json!({ "traceEvents": events, "displayTimeUnit": "ms" }).to_string()
}

#[cfg(test)]
mod tests {
    use super::*;
    use crate::small::small;

    #[test]
    fn each_command_is_an_event() {
        let trace: Value = serde_json::from_str(&trace(&small())).unwrap();
        let row = |event: &Value| {
            let number = |name: &str| event[name].as_f64().unwrap();
            let (tid, ts, dur) = (number("tid"), number("ts"), number("dur"));
            format!("{} {tid} {ts} {dur} {}", event["name"].as_str().unwrap(), event["args"]["status"])
        };
        let rows: Vec<String> = trace["traceEvents"].as_array().unwrap().iter().map(row).collect();
        let wanted = [
            "gcc -E 0 10500000 1000000 0",
            "cicc compute_90 0 12000000 3000000 2",
            "cicc compute_80 1 12000000 2000000 0",
            "nvcc 0 15000000 1000000 0",
            "nvcc 1 15000000 500000 0",
        ];
        assert_eq!(rows, wanted);
    }
}
