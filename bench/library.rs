//! The library's calls, through its static library.

pub mod linked {
    #[link(name = "bulk_bench", kind = "static")]
    extern "C" {
        pub fn bulk_bench_read(
            stream: *const u8,
            stream_length: usize,
            table: *mut u32,
            table_length: usize,
        ) -> usize;
        pub fn bulk_bench_write(
            stream: *const u8,
            stream_length: usize,
            table: *mut u32,
            table_length: usize,
            output: *mut u8,
            output_length: usize,
        ) -> usize;
        pub fn bulk_bench_evaluate(
            stream: *const u8,
            stream_length: usize,
            table: *mut u32,
            table_length: usize,
            workspace: *mut u8,
            workspace_length: usize,
            output: *mut u8,
            output_length: usize,
            steps: u64,
        ) -> usize;
        pub fn bulk_bench_backlog(
            buffer: *const u8,
            buffer_length: usize,
            ends: *const u64,
            ends_length: usize,
            table: *mut u32,
            table_length: usize,
            workspace: *mut u8,
            workspace_length: usize,
            output: *mut u8,
            output_length: usize,
            steps: u64,
            answers: *mut u64,
            answers_length: usize,
        ) -> usize;
        pub fn bulk_bench_item(
            stream: *const u8,
            stream_length: usize,
            result: *const u8,
            result_length: usize,
            of_result: bool,
            k: usize,
        ) -> usize;
    }
}

/// Gives the number of rows, 0 on a refusal.
pub fn read(stream: &[u8], table: &mut [u32]) -> usize {
    // The slices are valid for their lengths, and the call asks nothing else.
    unsafe {
        linked::bulk_bench_read(
            stream.as_ptr(),
            stream.len(),
            table.as_mut_ptr(),
            table.len(),
        )
    }
}

/// Gives the length, 0 on a refusal.
pub fn write(stream: &[u8], table: &mut [u32], output: &mut [u8]) -> usize {
    // As above.
    unsafe {
        linked::bulk_bench_write(
            stream.as_ptr(),
            stream.len(),
            table.as_mut_ptr(),
            table.len(),
            output.as_mut_ptr(),
            output.len(),
        )
    }
}

/// Gives the result's length, 0 on a refusal.
pub fn evaluate(
    stream: &[u8],
    table: &mut [u32],
    workspace: &mut [u8],
    output: &mut [u8],
    steps: u64,
) -> usize {
    // As above.
    unsafe {
        linked::bulk_bench_evaluate(
            stream.as_ptr(),
            stream.len(),
            table.as_mut_ptr(),
            table.len(),
            workspace.as_mut_ptr(),
            workspace.len(),
            output.as_mut_ptr(),
            output.len(),
            steps,
        )
    }
}

/// Gives the results' length in all, 0 on a refusal, and four numbers for each stream.
pub fn backlog(
    (buffer, ends): (&[u8], &[u64]),
    table: &mut [u32],
    workspace: &mut [u8],
    output: &mut [u8],
    steps: u64,
    answers: &mut [u64],
) -> usize {
    // As above.
    unsafe {
        linked::bulk_bench_backlog(
            buffer.as_ptr(),
            buffer.len(),
            ends.as_ptr(),
            ends.len(),
            table.as_mut_ptr(),
            table.len(),
            workspace.as_mut_ptr(),
            workspace.len(),
            output.as_mut_ptr(),
            output.len(),
            steps,
            answers.as_mut_ptr(),
            answers.len(),
        )
    }
}

/// Gives the length of item k, 0 if there is none: of the stream, or of the result.
pub fn item(stream: &[u8], result: &[u8], of_result: bool, k: usize) -> usize {
    // As above.
    unsafe {
        linked::bulk_bench_item(
            stream.as_ptr(),
            stream.len(),
            result.as_ptr(),
            result.len(),
            of_result,
            k,
        )
    }
}
