//! Whether the library and the second program answer a workload alike.

use crate::workloads::Workload;
use crate::{library, second, BYTES, ROWS};

/// Tells where they don't.
pub fn answers(workload: &Workload) -> bool {
    let stream = &workload.stream;
    let alike = [
        ("Read", read(stream)),
        ("Write", write(stream)),
        ("Evaluate", evaluate(stream)),
        ("Item", item(stream)),
    ];
    for (call, _) in alike.iter().filter(|(_, same)| !same) {
        println!("{}: {call} differs", workload.name);
    }
    alike.iter().all(|(_, same)| *same)
}

fn read(stream: &[u8]) -> bool {
    let mut table = vec![0; 4 * ROWS];
    let count = library::read(stream, &mut table);
    let rows = table.chunks(4).take(count);
    second::read(stream).is_ok_and(|expected| {
        let numbers = |row: &[usize; 4]| row.map(|number| number as u32);
        expected.len() == count
            && expected
                .iter()
                .map(numbers)
                .eq(rows.map(|row| [row[0], row[1], row[2], row[3]]))
    })
}

fn write(stream: &[u8]) -> bool {
    let mut output = vec![0; BYTES];
    let length = library::write(stream, &mut vec![0; 4 * ROWS], &mut output);
    second::write(stream).is_ok_and(|expected| expected == output[..length])
}

fn evaluate(stream: &[u8]) -> bool {
    let mut output = vec![0; BYTES];
    let (mut table, mut workspace) = (vec![0; 4 * ROWS], vec![0; BYTES]);
    let length = library::evaluate(stream, &mut table, &mut workspace, &mut output, u64::MAX);
    match second::evaluate(stream) {
        Ok((expected, _)) => expected == output[..length],
        Err(_) => length == 0,
    }
}

/// The first, the last and one past the last, of the stream and of the result.
fn item(stream: &[u8]) -> bool {
    let lengths = second::items(stream);
    let length = |k: usize| lengths.get(k).copied().unwrap_or(0);
    [0, lengths.len().saturating_sub(1), lengths.len()]
        .into_iter()
        .all(|k| {
            library::item(stream, &[], false, k) == length(k)
                && library::item(&[], stream, true, k) == length(k)
        })
}
