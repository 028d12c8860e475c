//! Load files: heavy program files that any bench can remake.

use crate::library;
use crate::refusal::Refusal;

/// The length of the longest load file.
pub const LOAD_FILE: usize = 8_405;

/// The load file of a seed: a program file whose cells and whose `n` statements of float arithmetic are drawn from the
/// seed. Function 1 does these statements and returns, whatever the seed is.
///
/// The same seed and `n` give the same bytes everywhere. A seed of 0, and `n` that isn't 1 to 1,000, are refused 35.
///
/// ```
/// use host::{load_file, Machine, Refusal, RunOutcome, CELLS, SAVED_STORE};
///
/// let mut machine = Machine::new(load_file(2_463_534_242, 7)?, vec![0; CELLS], vec![0; SAVED_STORE]);
/// machine.load()?;
/// machine.enter(1)?;
/// let run = machine.run(0, 8);
/// assert_eq!((run.outcome, run.count), (RunOutcome::Ended, 8));
///
/// assert_eq!(load_file(0, 7), Err(Refusal::new(35)));
/// assert_eq!(load_file(1, 1_001), Err(Refusal::new(35)));
/// # Ok::<(), Box<dyn std::error::Error>>(())
/// ```
pub fn load_file(seed: u32, n: i64) -> Result<Vec<u8>, Refusal> {
    let mut bytes = vec![0; LOAD_FILE];
    let length = write_load_file(seed, n, &mut bytes)?;
    bytes.truncate(length);
    Ok(bytes)
}

/// Writes what [`load_file`] gives to the front of a buffer, and gives its length. The bytes after it stay.
///
/// What [`load_file`] refuses is refused first; then a buffer that is too short is refused 34. Then nothing is written.
///
/// ```
/// use host::{write_load_file, Refusal};
///
/// let mut output = [238; 415];
/// assert_eq!(write_load_file(9, 1, &mut output[..412]), Err(Refusal::new(34)));
/// assert_eq!(output, [238; 415]);
/// assert_eq!(write_load_file(9, 1, &mut output), Ok(413));
/// assert_eq!(output[413..], [238, 238]);
/// ```
pub fn write_load_file(seed: u32, n: i64, output: &mut [u8]) -> Result<usize, Refusal> {
    library::make_file(seed, n, output).written()
}
