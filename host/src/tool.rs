//! A command line from its words to its exit status.

use crate::args;
use crate::failure::Failure;
use crate::streams::{Ended, Streams};
use std::ffi::OsString;

/// Runs a command line and answers the exit status.
pub fn run(args: &[OsString], streams: &mut Streams) -> u8 {
    let ended = args::parse(args).and_then(|(command, given)| (command.run)(&given, streams)).and_then(|ended| {
        streams.flush()?;
        Ok(ended)
    });
    match ended {
        Ok(Ended::Well) => 0,
        Ok(Ended::Refused) => 1,
        Ok(Ended::Unread) | Err(Failure::Gone) => 2,
        Err(failure) => {
            streams.say(&failure.to_string());
            if let Failure::Usage(_) = failure {
                streams.say("'malxuqeed help' and 'malxuqeed help COMMAND' say more");
            }
            2
        }
    }
}
