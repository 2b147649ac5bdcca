use crate::abi::{self, Place, Rule, Start, Verdict};
use crate::args::{usage, Given};
use crate::command::{Command, Opt};
use crate::explain::{place_text, sentence, About};
use crate::failure::{escaped, shown, Failure};
use crate::files;
use crate::pieces;
use crate::refuse::refuse;
use crate::room::{self, Room};
use crate::sheet::Output;
use crate::streams::{Ended, Streams};
use crate::volume::Volume;
use std::collections::BTreeMap;
use std::fs;
use std::path::{Path, PathBuf};

const REPLACE: Opt = Opt::switch(
    "--force",
    "replace what stands under the name of a sheet and is not that sheet, write-protected or not; and let sheets of no piece of \
     this volume stay",
);

pub static COMMAND: Command = Command {
    name: "build-all",
    brief: "mesh every surface of a volume, a sheet file for each",
    names: &["VOLUME", "DIR"],
    options: &[REPLACE],
    text: "\
Meshes each surface that 'malxuqeed pieces' lists and writes it to a sheet file in the folder DIR: NUMBER.sheet, the number of its \
lowest cube in six digits, so that their order by name is that of the pieces. The first line of standard output has the count; \
then comes a line for each: 'accepted NUMBER.sheet X,Y,Z V T CUBES', its start and the counts of vertices, triangles and visited \
cubes. A refusal prints 'refused N', and nothing is written.

A sheet is written beside its name, read back and checked against the volume from its start, and has its name after that: a crash, \
a signal or a full disk leaves only whole sheets. The same command goes on from there: a sheet that stands there already is left as \
it is and checked. One that is not accepted as it stands on the disk is not given its name, and its line is 'refused N PLACE \
NUMBER.sheet X,Y,Z'.

DIR is made where there is none. Files of other names in it are not touched. Where something else stands under the name of a sheet, \
or a sheet of six digits is of no piece of this volume, nothing is written, so that sheets of two volumes are not mixed; --force \
replaces the one and lets the other stay.",
    run,
};

fn run(given: &Given, streams: &mut Streams) -> Result<Ended, Failure> {
    let (from, folder) = (given.name(0), given.name(1));
    if files::is_stream(folder) {
        return usage("build-all writes to a folder, and - is none; ./- is a folder of that name");
    }
    let volume = Volume::read(from, streams)?;
    let mut room = Room::default();
    let starts = match pieces::find(&volume, &mut room) {
        Ok(starts) => starts,
        Err(number) => {
            let about = About { volume: Some((from, &volume)), pieces: true, ..About::default() };
            return refuse(number, &about, streams);
        }
    };
    let (output, force) = (Output::new(volume.sizes), given.has(&REPLACE));
    let mut run = Run { from, volume: &volume, folder, force, room, output, kept: 0 };
    run.prepare(&starts, streams)?;
    streams.print(format_args!("{}", starts.len()))?;
    streams.flush()?;
    let mut ended = Ended::Well;
    for start in starts {
        if !run.piece(start, streams)? {
            ended = Ended::Refused;
        }
    }
    match run.kept {
        0 => {}
        1 => streams.say("1 sheet was there already, as it should be"),
        kept => streams.say(&format!("{kept} sheets were there already, as they should be")),
    }
    Ok(ended)
}

/// Whether a name is that of a sheet of this command.
fn is_sheet(name: &str) -> bool {
    name.strip_suffix(".sheet").is_some_and(|digits| digits.len() == 6 && digits.bytes().all(|b| b.is_ascii_digit()))
}

struct Run<'a> {
    from: &'a Path,
    volume: &'a Volume,
    folder: &'a Path,
    force: bool,
    room: Room,
    output: Output,
    /// Sheets that were there already.
    kept: usize,
}

/// A sheet that is built: its counts in a line, and its file.
struct Meshed {
    counts: String,
    bytes: Vec<u8>,
}

impl Run<'_> {
    fn name(&self, start: Place) -> String {
        format!("{:06}.sheet", room::cube_number(self.volume.sizes, start))
    }

    fn path(&self, start: Place) -> PathBuf {
        self.folder.join(self.name(start))
    }

    /// The folder is there, and nothing in it is in the way.
    fn prepare(&mut self, starts: &[Place], streams: &mut Streams) -> Result<(), Failure> {
        let failed = |error| Failure::writing(self.folder, &error);
        if !files::make_folder(self.folder).map_err(failed)? {
            return Ok(());
        }
        let by_name: BTreeMap<String, Place> = starts.iter().map(|start| (self.name(*start), *start)).collect();
        let mut strays = 0;
        for entry in fs::read_dir(self.folder).map_err(failed)? {
            let name = entry.map_err(failed)?.file_name().to_string_lossy().into_owned();
            match by_name.get(&name) {
                Some(start) => self.may_stand(*start)?,
                None if !is_sheet(&name) => {}
                None if self.force => strays += 1,
                None => {
                    return Err(Failure::File(format!(
                        "{} holds {}, which is of no piece of {}; nothing was written: name another folder, or let it stay with \
                         --force",
                        shown(self.folder),
                        escaped(&name),
                        shown(self.from)
                    )))
                }
            }
        }
        if strays > 0 {
            let (folder, from) = (shown(self.folder), shown(self.from));
            streams.say(&format!("{strays} sheets in {folder} are of no piece of {from}; they stay"));
        }
        Ok(())
    }

    /// What stands under the name of a sheet is that sheet, or may be replaced.
    fn may_stand(&mut self, start: Place) -> Result<(), Failure> {
        let path = self.path(start);
        if self.force {
            return files::apart(&[self.from], &[&path]);
        }
        let own = self.mesh(start)?;
        if fs::read(&path).is_ok_and(|there| there == own.bytes) {
            return Ok(());
        }
        Err(Failure::File(format!(
            "{} is there and is not the sheet of {} from {}; nothing was written: name another folder, or replace it with --force",
            shown(&path),
            shown(self.from),
            place_text(start)
        )))
    }

    fn mesh(&mut self, start: Place) -> Result<Meshed, Failure> {
        // the start is crossed and there is room enough, so nothing is refused
        let refused = |number| Failure::File(format!("the sheet from {} is refused, {number}", place_text(start)));
        let meshed = self.output.build(self.volume, Start::Cube(start), &mut self.room);
        let (built, bytes) = meshed.map_err(refused)?;
        let counts = format!("{} {} {}", built.vertices, built.triangles, built.cubes);
        Ok(Meshed { counts, bytes })
    }

    fn check(&mut self, start: Place, bytes: &[u8]) -> Verdict {
        abi::check(Rule::Nearest, self.volume.from(Start::Cube(start)), bytes, self.room.lend(self.volume.sizes))
    }

    /// Builds, writes and checks one sheet, and prints its line; answers whether it was accepted.
    fn piece(&mut self, start: Place, streams: &mut Streams) -> Result<bool, Failure> {
        let Meshed { counts, bytes } = self.mesh(start)?;
        let (path, name, cube) = (self.path(start), self.name(start), place_text(start));
        let verdict = if fs::read(&path).is_ok_and(|there| there == bytes) {
            self.kept += 1;
            self.check(start, &bytes)
        } else {
            files::put_tested(&path, &bytes, self.force, |written| {
                let verdict = self.check(start, written);
                (verdict, verdict.number == 0)
            })?
        };
        if verdict.number == 0 {
            streams.print(format_args!("accepted {name} {cube} {counts}"))?;
            streams.flush()?;
            return Ok(true);
        }
        streams.print(format_args!("refused {} {} {name} {cube}", verdict.number, verdict.place))?;
        streams.flush()?;
        let about = About {
            volume: Some((self.from, self.volume)),
            sheet: Some((&path, &bytes)),
            start: Some(start),
            ..About::default()
        };
        streams.say(&sentence(verdict, &about));
        Ok(false)
    }
}

#[cfg(test)]
mod tests {
    use super::*;

    #[test]
    fn names() {
        assert!(is_sheet("000000.sheet") && is_sheet("250046.sheet"));
        for other in [
            "00000.sheet",
            "0000000.sheet",
            "00000a.sheet",
            "000000.shee",
            ".sheet",
            "000000.sheet.bak",
            "+00000.sheet",
        ] {
            assert!(!is_sheet(other), "{other}");
        }
    }
}
