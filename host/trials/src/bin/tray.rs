//! `tray FOLDER`: writes the demo's synthetic tray as greys, tray.raw, and as floats, tray.flt, and a manifest with a line for each of
//! its surfaces.

use std::path::Path;
use std::process::ExitCode;
use trials::tray;

fn main() -> ExitCode {
    let args: Vec<_> = std::env::args_os().skip(1).collect();
    let [folder] = &args[..] else {
        eprintln!("tray FOLDER: writes tray.raw, tray.flt and manifest.txt");
        return ExitCode::from(2);
    };
    let volume = tray::volume();
    let mut manifest = String::new();
    for piece in tray::pieces(&volume) {
        let [x, y, z] = piece.start;
        manifest += &format!("tray.vol {}.sheet {x},{y},{z}\n", piece.name);
    }
    let folder = Path::new(folder);
    let written = std::fs::create_dir_all(folder)
        .and_then(|()| std::fs::write(folder.join("tray.raw"), tray::greys(&volume)))
        .and_then(|()| std::fs::write(folder.join("tray.flt"), tray::floats(&volume)))
        .and_then(|()| std::fs::write(folder.join("manifest.txt"), manifest));
    match written {
        Ok(()) => {
            let [nx, ny, nz] = volume.sizes;
            let (level, unseen) = (tray::LEVEL, tray::UNSEEN);
            println!(
                "tray.raw: {nx} x {ny} x {nz} greys of 16 bits, air below {level}, {unseen} where nothing is seen"
            );
            println!("tray.flt: the same divided by 256, as 32-bit floats behind their sizes");
            ExitCode::SUCCESS
        }
        Err(error) => {
            eprintln!("{} cannot be written: {error}", folder.display());
            ExitCode::from(2)
        }
    }
}
