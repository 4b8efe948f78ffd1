//! One workload's times.

use crate::documents::document;
use crate::peers::{self, Kept};
use crate::timing::{least, Call};
use crate::workloads::Workload;
use crate::{library, second, tree, BYTES, ROWS};
use std::hint::black_box;

/// What a call takes for a workload, in nanoseconds.
pub struct Timed {
    pub workload: &'static str,
    pub call: &'static str,
    pub large_array: bool,
    pub bytes: usize,
    pub units: usize,
    pub library: f64,
    pub second: f64,
    pub copy: f64,
    /// Of each peer, for what stands beside the call, if it can do the document.
    pub peers: Vec<Option<f64>>,
}

impl Timed {
    /// How many times as long the second program takes.
    pub fn ratio(&self) -> f64 {
        self.second / self.library
    }
}

/// The calls that stand beside each other: the library's, the second program's, and the peers'.
struct Job<'a> {
    call: &'static str,
    units: usize,
    library: Call<'a>,
    second: Call<'a>,
    peers: Vec<Option<Call<'a>>>,
}

/// Read, Write and, where the stream is accepted, Evaluate.
pub fn measure(workload: &Workload) -> Vec<Timed> {
    let stream = &workload.stream[..];
    let list = tree::read(stream, ROWS as u64).unwrap_or_default();
    let documents = peers::ALL.iter().map(|peer| document(&peer.format, &list));
    let documents: Vec<Vec<u8>> = documents.collect();
    let kept = peers::ALL
        .iter()
        .zip(&documents)
        .map(|(peer, document)| peer.keep(document));
    let kept: Vec<Option<Kept>> = kept.collect();
    let rows = tree::rows(&list).len();
    let mut jobs = vec![
        reading(stream, rows, &documents),
        writing(stream, rows, &kept),
    ];
    if let Ok((_, steps)) = second::evaluate(stream) {
        jobs.push(evaluating(stream, steps as usize));
    }
    let mut output = vec![0; BYTES];
    let mut copy: Call = Box::new(move || {
        output[..stream.len()].copy_from_slice(black_box(stream));
        black_box(&output);
    });
    let times = least(
        jobs.iter_mut()
            .flat_map(Job::calls)
            .chain([&mut copy])
            .collect(),
    );
    timed(workload, &jobs, &times)
}

impl<'a> Job<'a> {
    fn calls<'b>(&'b mut self) -> Vec<&'b mut Call<'a>> {
        let peers = self.peers.iter_mut().flatten();
        [&mut self.library, &mut self.second]
            .into_iter()
            .chain(peers)
            .collect()
    }
}

fn reading<'a>(stream: &'a [u8], units: usize, documents: &'a [Vec<u8>]) -> Job<'a> {
    let mut table = vec![0; 4 * ROWS];
    let decode = |(peer, document): (&'static peers::Peer, &'a Vec<u8>)| -> Option<Call<'a>> {
        peer.decode(document).then(|| -> Call<'a> {
            Box::new(move || {
                black_box(peer.decode(black_box(document)));
            })
        })
    };
    Job {
        call: "Read",
        units,
        library: Box::new(move || {
            black_box(library::read(black_box(stream), &mut table));
        }),
        second: Box::new(move || {
            let _ = black_box(second::read(black_box(stream)));
        }),
        peers: peers::ALL.iter().zip(documents).map(decode).collect(),
    }
}

fn writing<'a>(stream: &'a [u8], units: usize, kept: &'a [Option<Kept>]) -> Job<'a> {
    let (mut table, mut output) = (vec![0; 4 * ROWS], vec![0; BYTES]);
    let encode = |kept: &'a Kept| -> Call<'a> {
        Box::new(move || {
            black_box(kept.encode());
        })
    };
    Job {
        call: "Write",
        units,
        library: Box::new(move || {
            black_box(library::write(black_box(stream), &mut table, &mut output));
        }),
        second: Box::new(move || {
            let _ = black_box(second::write(black_box(stream)));
        }),
        peers: kept.iter().map(|kept| kept.as_ref().map(encode)).collect(),
    }
}

fn evaluating(stream: &[u8], units: usize) -> Job<'_> {
    let (mut table, mut output) = (vec![0; 4 * ROWS], vec![0; BYTES]);
    let mut workspace = vec![0; BYTES];
    Job {
        call: "Evaluate",
        units,
        library: Box::new(move || {
            let stream = black_box(stream);
            let length =
                library::evaluate(stream, &mut table, &mut workspace, &mut output, u64::MAX);
            black_box(length);
        }),
        second: Box::new(move || {
            let _ = black_box(second::evaluate(black_box(stream)));
        }),
        peers: peers::ALL.iter().map(|_| None).collect(),
    }
}

/// The times in the order in which the calls were handed over, the copy's last.
fn timed(workload: &Workload, jobs: &[Job], times: &[f64]) -> Vec<Timed> {
    let (copy, mut times) = (times[times.len() - 1], times.iter().copied());
    let mut next = move || times.next().unwrap_or(f64::NAN);
    let of_job = |job: &Job| Timed {
        workload: workload.name,
        call: job.call,
        large_array: workload.large_array,
        bytes: workload.stream.len(),
        units: job.units,
        library: next(),
        second: next(),
        copy,
        peers: job
            .peers
            .iter()
            .map(|peer| peer.as_ref().map(|_| next()))
            .collect(),
    };
    jobs.iter().map(of_job).collect()
}
