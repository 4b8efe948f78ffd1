//! The arguments of `bulk_eval`, and what it must print with them for document 01's stream i,
//! which needs 8 steps and a workspace of 20 bytes.

/// 64 digits, and 65, which are too many.
const LONGEST: &str = "0000000000000000000000000000000000000000000000000000000000000020";
const TOO_LONG: &str = "00000000000000000000000000000000000000000000000000000000000000020";

const RESULT: &[u8] = b"\x01\x20\x00\x81\x80\x02\x01\x20\x06\x28\x00\xC1\x41\x02\x85";
const USAGE: &[u8] = b"usage: bulk_eval [STEPS [WORKSPACE]]\n";

pub const RUNS: [(&[&str], &[u8]); 23] = [
    (&[], RESULT),
    (&["8"], RESULT),
    (&["0008", "20"], RESULT),
    (&["18446744073709551615", "65536"], RESULT),
    (&["18446744073709551616", "65537"], RESULT),
    (&["99999999999999999999999", "18446744073709551616"], RESULT),
    (&["8", LONGEST], RESULT),
    (&["7"], b"refused 16 21\n"),
    (&["0"], b"refused 16 0\n"),
    (&["8", "19"], b"refused 17 21\n"),
    (&["8", "0"], b"refused 17 1\n"),
    (&[""], USAGE),
    (&["-1"], USAGE),
    (&["+8"], USAGE),
    (&["8 "], USAGE),
    (&["0x8"], USAGE),
    (&["8.0"], USAGE),
    (&["all"], USAGE),
    (&["8", ""], USAGE),
    (&["8", "20k"], USAGE),
    (&["8", TOO_LONG], USAGE),
    (&["8", "20", "20"], USAGE),
    (&["8", "20", ""], USAGE),
];
