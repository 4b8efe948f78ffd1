//! The goals, and which workloads meet them.

use crate::peers;
use crate::timed::Timed;

struct Goal {
    text: &'static str,
    call: &'static str,
    /// By how much a workload meets it: 1 is just enough. None if it is not about the workload.
    met_by: fn(&Timed) -> Option<f64>,
}

/// How many times as long a peer takes. None if it is not installed or can't do the document.
fn beside(name: &str, timed: &Timed) -> Option<f64> {
    let peer = peers::ALL.iter().position(|peer| peer.name == name)?;
    Some(timed.peers[peer]? / timed.library)
}

fn beside_msgpack(timed: &Timed) -> Option<f64> {
    beside("msgpack-c", timed)
}

/// A refusal leaves the table as it was, so that Read tells every token twice.
fn beside_msgpuck(timed: &Timed) -> Option<f64> {
    Some(2.0 * beside("msgpuck", timed)?)
}

fn beside_copy(timed: &Timed) -> Option<f64> {
    timed.large_array.then(|| 1.5 * timed.copy / timed.library)
}

const GOALS: [Goal; 8] = [
    Goal {
        text: "a row faster than msgpack-c decodes an item",
        call: "Read",
        met_by: beside_msgpack,
    },
    Goal {
        text: "a row faster than msgpack-c encodes an item",
        call: "Write",
        met_by: beside_msgpack,
    },
    Goal {
        text: "a row within twice what msgpuck's check takes for an item",
        call: "Read",
        met_by: beside_msgpuck,
    },
    Goal {
        text: "twice as fast as the second program",
        call: "Read",
        met_by: |timed| Some(timed.ratio() / 2.0),
    },
    Goal {
        text: "twice as fast as the second program",
        call: "Write",
        met_by: |timed| Some(timed.ratio() / 2.0),
    },
    Goal {
        text: "three times as fast as the second program",
        call: "Evaluate",
        met_by: |timed| Some(timed.ratio() / 3.0),
    },
    Goal {
        text: "a large array within 1.5 times a copy",
        call: "Read",
        met_by: beside_copy,
    },
    Goal {
        text: "a large array within 1.5 times a copy",
        call: "Write",
        met_by: beside_copy,
    },
];

pub fn print(timed: &[Timed]) {
    println!("\ngoals (1.00 is just met)");
    for goal in &GOALS {
        let of_call = timed.iter().filter(|timed| timed.call == goal.call);
        let met_by: Vec<(&str, f64)> = of_call
            .filter_map(|timed| Some((timed.workload, (goal.met_by)(timed)?)))
            .collect();
        let missed: Vec<String> = met_by
            .iter()
            .filter(|(_, by)| *by < 1.0)
            .map(|(workload, by)| format!("{workload} {by:.2}"))
            .collect();
        let met = met_by.len() - missed.len();
        println!(
            "{}: {}: {met} of {} workloads",
            goal.call,
            goal.text,
            met_by.len()
        );
        if !missed.is_empty() {
            println!("    not {}", missed.join(", "));
        }
    }
}
