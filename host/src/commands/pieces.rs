use crate::args::Given;
use crate::command::Command;
use crate::explain::About;
use crate::failure::Failure;
use crate::pieces;
use crate::refuse::refuse;
use crate::room::{self, Room};
use crate::streams::{Ended, Streams};
use crate::volume::Volume;

pub static COMMAND: Command = Command {
    name: "pieces",
    brief: "list the separate surfaces of a volume by their starts",
    names: &["VOLUME"],
    options: &[],
    text: "\
Prints how many separate surfaces the volume has, then a line for each: NUMBER X Y Z, its lowest cube by number and place, in \
rising order. Cube X,Y,Z has number X + (nx-1) * (Y + (ny-1) * Z), and --start X,Y,Z builds that surface. A refusal prints \
'refused N'; where no cube is crossed it is 5.

Each cube that a surface crosses is of exactly one of them: two cubes are of the same where steps through faces with corners on \
both sides lead from one to the other, through cubes free of the scanner's fill.",
    run,
};

fn run(given: &Given, streams: &mut Streams) -> Result<Ended, Failure> {
    let path = given.name(0);
    let volume = Volume::read(path, streams)?;
    let starts = match pieces::find(&volume, &mut Room::default()) {
        Ok(starts) => starts,
        Err(number) => {
            let about = About { volume: Some((path, &volume)), pieces: true, ..About::default() };
            return refuse(number, &about, streams);
        }
    };
    streams.print(format_args!("{}", starts.len()))?;
    for start in starts {
        let number = room::cube_number(volume.sizes, start);
        streams.print(format_args!("{number} {} {} {}", start.x, start.y, start.z))?;
    }
    Ok(Ended::Well)
}
