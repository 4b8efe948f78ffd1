//! The times as a table.

use crate::peers;
use crate::timed::Timed;
use crate::timing::ROUNDS;

pub fn print_head() {
    println!(
        "Nanoseconds, the least of {ROUNDS} rounds. A unit is a row for Read and Write, a step for Evaluate, an item\n\
         for the peers. Read stands beside decoding by msgpack-c and libcbor, msgpuck's check and libmpack's tokenizer,\n\
         which build nothing; Write beside encoding. The library's buffers are lent once and not cleared between calls;\n\
         the second program allocates as it goes.\n"
    );
    let peers: String = peers::ALL
        .iter()
        .map(|peer| format!("{:>10}", peer.name))
        .collect();
    println!(
        "{:44} |{:^16} |{:^16} |       |   copy |{peers}",
        "", "library", "second"
    );
    println!(
        "{:<22}{:<10}{:>6}{:>6} |   /byte   /unit |   /byte   /unit | ratio |  /byte |{:>9}",
        "workload", "call", "bytes", "units", "/unit"
    );
}

pub fn print(timed: &Timed) {
    let per_byte = |time: f64| time / timed.bytes as f64;
    let per_unit = |time: f64| time / timed.units as f64;
    let peers = timed.peers.iter().map(|time| match time {
        Some(time) => format!("{:>10.2}", per_unit(*time)),
        None => format!("{:>10}", "-"),
    });
    println!(
        "{:<22}{:<10}{:>6}{:>6} |{:>8.3}{:>8.2} |{:>8.3}{:>8.2} |{:>6.2} |{:>7.4} |{}",
        timed.workload,
        timed.call,
        timed.bytes,
        timed.units,
        per_byte(timed.library),
        per_unit(timed.library),
        per_byte(timed.second),
        per_unit(timed.second),
        timed.ratio(),
        per_byte(timed.copy),
        peers.collect::<String>()
    );
}
