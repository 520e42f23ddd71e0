//! The batch of include/fenuschia.h on slices: the compiler keeps what the header asks of buffers.

extern "C" {
    fn fenuschia_batch(
        file: *const u8,
        file_length: usize,
        reports: *const u8,
        reports_length: usize,
        answers: *mut u8,
        answers_length: usize,
        departures: *mut u8,
        departures_length: usize,
    ) -> u32;
}

/// Answers and departures of the reports, from the fresh port of the table file; or the number of the refusal.
pub fn batch(
    file: &[u8],
    reports: &[u8],
    answers: &mut [u8],
    departures: &mut [u8],
) -> Result<(), u32> {
    // Slices are whole, not null, and a `&mut` overlaps no other.
    let refused = unsafe {
        fenuschia_batch(
            file.as_ptr(),
            file.len(),
            reports.as_ptr(),
            reports.len(),
            answers.as_mut_ptr(),
            answers.len(),
            departures.as_mut_ptr(),
            departures.len(),
        )
    };
    if refused == 0 {
        Ok(())
    } else {
        Err(refused)
    }
}
