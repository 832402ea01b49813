//! A table or profile that a command was given: its numbers, and what is said of it where it is refused.

use chukkanalli::tables::{Faults, ReadBy, Reader};
use chukkanalli::{Evaluator, Refusal};

use crate::sources::Source;

/// What an evaluation made of a table or profile, and how that was read.
pub struct Graded<R> {
    pub read_by: ReadBy,
    pub result: R,
}

/// Reads a table and hands its parts to an evaluation, by one evaluator or several; a refusal gets its place in the file.
pub fn evaluated<E, R>(
    source: &Source,
    reader: &Reader,
    evaluators: &mut E,
    evaluation: impl FnOnce(&mut E, &[u8]) -> Result<R, Refusal>,
) -> Result<Graded<R>, Faults> {
    let table = reader.read(&source.bytes::<u8>()?)?;
    match evaluation(evaluators, &table.numbers) {
        Ok(result) => Ok(Graded { read_by: table.read_by, result }),
        Err(refusal) => Err(reader.refused(refusal, &table)),
    }
}

/// Reads a profile and hands its numbers to an evaluation; a refusal gets its place in the file.
pub fn valued<R>(
    source: &Source,
    reader: &Reader,
    evaluator: &mut Evaluator,
    evaluation: impl FnOnce(&mut Evaluator, &[f64]) -> Result<R, Refusal>,
) -> Result<Graded<R>, Faults> {
    let profile = reader.read_profile(&source.bytes::<f64>()?)?;
    match evaluation(evaluator, &profile.numbers) {
        Ok(result) => Ok(Graded { read_by: profile.read_by, result }),
        Err(refusal) => Err(reader.refused(refusal, &profile)),
    }
}
