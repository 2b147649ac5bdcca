//! Refusals as the commands print them.

use crate::abi::Verdict;
use crate::explain::{sentence, About};
use crate::failure::Failure;
use crate::streams::{Ended, Streams};

/// Prints a refusal without a place, and its sentence.
pub fn refuse(number: usize, about: &About, streams: &mut Streams) -> Result<Ended, Failure> {
    streams.print(format_args!("refused {number}"))?;
    streams.flush()?;
    streams.say(&sentence(Verdict { number, place: 0 }, about));
    Ok(Ended::Refused)
}

/// Prints a refusal with its place, and its sentence.
pub fn refuse_at(verdict: Verdict, about: &About, streams: &mut Streams) -> Result<Ended, Failure> {
    streams.print(format_args!("refused {} {}", verdict.number, verdict.place))?;
    streams.flush()?;
    streams.say(&sentence(verdict, about));
    Ok(Ended::Refused)
}
