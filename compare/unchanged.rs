//! "Only such streams' results change": streams in which no form is headed by prefix*.

use crate::evaluations::random_evaluation;
use crate::pieces::{ARITY, POSTFIX, POSTFIX_STAR, PREFIX, PREFIX_STAR};
use crate::random::Random;
use crate::requests::{Draft, Request};

const HEAD: [u8; 3] = [0x01, 0x20, PREFIX_STAR];

/// So many streams, the same ones for the same seed.
pub fn drafts(seed: u64, count: usize) -> Vec<Draft> {
    let mut random = Random::new(seed);
    let mut draft = |_| {
        let stream = random_evaluation(&mut random);
        Draft::Evaluation(headed_otherwise(&mut random, stream))
    };
    (0..count).map(&mut draft).collect()
}

/// With another bytecode name wherever a form is headed by prefix*, and in bytes that look so.
fn headed_otherwise(random: &mut Random, mut stream: Vec<u8>) -> Vec<u8> {
    let is_head = |stream: &[u8]| stream.windows(HEAD.len()).position(|bytes| bytes == HEAD);
    while let Some(at) = is_head(&stream) {
        stream[at + 2] = random.pick(&[PREFIX, PREFIX, POSTFIX, POSTFIX_STAR, ARITY]);
    }
    stream
}

/// The same requests, for the second program's evaluation by document 01 alone.
pub fn for_base(requests: &[Request]) -> Vec<Request> {
    let base = |request: &Request| match request.line.strip_prefix(b"evaluate ") {
        Some(rest) => Request::new([b"base ", rest].concat()),
        None => Request::new(request.line.clone()),
    };
    requests.iter().map(base).collect()
}
