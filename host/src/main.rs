//! `malxuqeed`: builds, checks, lists, shows, draws, exports and audits sheets.

use host::signals;
use host::streams::Streams;
use host::tool::run;
use std::io::{self, BufWriter, IsTerminal};
use std::process::ExitCode;

mod closed;

fn main() -> ExitCode {
    if closed::output_was_closed() {
        eprintln!("malxuqeed: standard output is closed, so no answer could be given; nothing was done");
        return ExitCode::from(2);
    }
    if let Err(error) = signals::watch() {
        eprintln!("malxuqeed: signals cannot be watched for: {error}");
        return ExitCode::from(2);
    }
    let args: Vec<_> = std::env::args_os().skip(1).collect();
    let status = run(
        &args,
        &mut Streams {
            input: &mut io::stdin().lock(),
            output: &mut BufWriter::with_capacity(1 << 16, io::stdout().lock()),
            errors: &mut io::stderr(),
            terminal: io::stderr().is_terminal(),
        },
    );
    ExitCode::from(status)
}
