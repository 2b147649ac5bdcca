//! `volumes FOLDER`: writes the benchmark's three volumes as volume files, pore.vol, tray.vol and noise.vol.

use std::path::Path;
use std::process::ExitCode;
use trials::volumes;

fn main() -> ExitCode {
    let args: Vec<_> = std::env::args_os().skip(1).collect();
    let [folder] = &args[..] else {
        eprintln!("volumes FOLDER: writes pore.vol, tray.vol and noise.vol");
        return ExitCode::from(2);
    };
    let folder = Path::new(folder);
    let write = |(name, case): (&str, trials::cases::Case)| {
        std::fs::write(folder.join(name).with_extension("vol"), case.file())
    };
    match std::fs::create_dir_all(folder).and_then(|()| volumes::all().into_iter().try_for_each(write)) {
        Ok(()) => ExitCode::SUCCESS,
        Err(error) => {
            eprintln!("{} cannot be written: {error}", folder.display());
            ExitCode::from(2)
        }
    }
}
