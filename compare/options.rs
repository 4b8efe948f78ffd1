//! The command line.

pub const USAGE: &str = "usage: compare FIRST SECOND [FILE-OR-FOLDER ..] [--single LIST WRITE EVAL]
               [--seed N] [--count N]
       compare --times FIRST SECOND
       compare --unchanged FIRST SECOND [--seed N] [--count N]
       compare --print-known
       compare --print-random [--seed N] [--count N]
FIRST and SECOND are the programs to compare. Each line of a file is a request; of a
folder, every file is taken, in the order of names. COUNT random requests, streams to
evaluate, backlogs and streams to cut off are made from SEED. A stream to evaluate gets one
to five requests, a backlog two or three, and a stream to cut off up to fifteen. Without
these, the seed is 1 and the count 100000.
LIST, WRITE and EVAL are three more programs, each run on one stream at a time: document
01's, some at the limits, and random ones from SEED. LIST must print the rows, WRITE the
bytes and EVAL the result that SECOND answers to `read`, `write` and `evaluate` for that
stream, or its refusal. FIRST must then answer `too long` to a backlog above its limits.
With --times, nothing is compared: FIRST evaluates streams and backlogs of three sizes, and
its time must be linear; some other streams have a time of their own.
With --unchanged, COUNT streams in which no form is headed by prefix* are evaluated, and
SECOND answers `base`, which keeps all bytecode as data.";

#[derive(PartialEq)]
pub enum Mode {
    Compare,
    Times,
    Unchanged,
    Print,
}

pub struct Options {
    pub mode: Mode,
    pub paths: Vec<String>,
    /// In the order of `single::PROGRAMS`.
    pub single: Option<[String; 3]>,
    pub seed: u64,
    pub count: usize,
    pub print_known: bool,
    pub print_random: bool,
}

/// None if the command line is not as the usage has it.
pub fn options(mut arguments: impl Iterator<Item = String>) -> Option<Options> {
    let mut options = Options {
        mode: Mode::Compare,
        paths: Vec::new(),
        single: None,
        seed: 1,
        count: 100_000,
        print_known: false,
        print_random: false,
    };
    while let Some(argument) = arguments.next() {
        let mut next = || arguments.next();
        match argument.as_str() {
            "--single" => options.single = Some([next()?, next()?, next()?]),
            "--seed" => options.seed = next()?.parse().ok()?,
            "--count" => options.count = next()?.parse().ok()?,
            "--times" => options.mode = Mode::Times,
            "--unchanged" => options.mode = Mode::Unchanged,
            "--print-known" => options.print_known = true,
            "--print-random" => options.print_random = true,
            option if option.starts_with("--") => return None,
            _ => options.paths.push(argument),
        }
    }
    if options.print_known || options.print_random {
        options.mode = Mode::Print;
    }
    fits(&options).then_some(options)
}

fn fits(options: &Options) -> bool {
    let paths = options.paths.len();
    match options.mode {
        Mode::Compare => paths >= 2,
        Mode::Times | Mode::Unchanged => paths == 2 && options.single.is_none(),
        Mode::Print => paths == 0 && options.single.is_none(),
    }
}
