//! The verdict on a sheet, from a start that is named or from the sheet itself. Every verdict is the library's.

use crate::abi::{self, Place, Rule, Verdict};
use crate::args::Start;
use crate::cubes::Cubes;
use crate::room::Room;
use crate::sheet::Sheet;
use crate::volume::Volume;

/// A verdict, and the start cube that it was given for; none where no cube was looked for.
#[derive(Clone, Copy, Debug, PartialEq, Eq)]
pub struct Judged {
    pub verdict: Verdict,
    pub start: Option<Place>,
}

/// The verdict on a sheet that was made under a rule.
pub fn judge(volume: &Volume, bytes: &[u8], start: Start, rule: Rule, room: &mut Room) -> Judged {
    match start {
        Start::Auto => automatic(volume, bytes, rule, room),
        Start::Unnamed | Start::Lowest | Start::Cube(_) => {
            let found = || Cubes::of(volume).and_then(|cubes| cubes.start(start.given()));
            Judged { verdict: check(volume, bytes, start.given(), rule, room), start: start.named().or_else(found) }
        }
    }
}

/// Whether a sheet that is refused under a rule is accepted under the other. Only positions, and so 17, tell the rules apart.
pub fn other_accepts(
    judged: Judged,
    volume: &Volume,
    bytes: &[u8],
    start: Start,
    rule: Rule,
    room: &mut Room,
) -> bool {
    judged.verdict.number == 17 && judge(volume, bytes, start, rule.other(), room).verdict.number == 0
}

/// What is then said.
pub fn other_text(rule: Rule) -> String {
    format!("Under --rule {} it is accepted: it was made under that rule of rounding", rule.other().name())
}

fn check(volume: &Volume, bytes: &[u8], start: abi::Start, rule: Rule, room: &mut Room) -> Verdict {
    abi::check(rule, volume.from(start), bytes, room.lend(volume.sizes))
}

/// A sheet's first record lies on an edge of a cube that the sheet passes through. So the cubes round that edge are tried,
/// which are on one surface, or on several where fill parts them; if one of them is accepted, so is the file. Where that edge
/// is crossed in no cube, the file is wrong from every start, and the first record that says more is taken instead.
fn automatic(volume: &Volume, bytes: &[u8], rule: Rule, room: &mut Room) -> Judged {
    let lowest = abi::Start::Lowest;
    let unfound = |room: &mut Room| Judged { verdict: check(volume, bytes, lowest, rule, room), start: None };
    let Some(cubes) = Cubes::of(volume) else { return unfound(room) };
    let sheet = match Sheet::read(bytes) {
        Ok(sheet) => sheet,
        Err(verdict) => return Judged { verdict, start: None },
    };
    if sheet.sizes != volume.sizes {
        return unfound(room);
    }
    let rounds = sheet.records().map(|record| cubes.round_edge(record[0]));
    let Some(starts) = rounds.into_iter().find(|starts| !starts.is_empty()) else { return unfound(room) };
    let mut best: Option<Judged> = None;
    for start in starts {
        let verdict = check(volume, bytes, abi::Start::Cube(start), rule, room);
        let tried = Judged { verdict, start: Some(start) };
        if tried.verdict.number == 0 {
            return tried;
        }
        // of the refusals, the one that came last in the order of tests, since it fits the file best
        let reach = |judged: &Judged| (judged.verdict.number, judged.verdict.place);
        if best.as_ref().map_or(true, |best| reach(best) < reach(&tried)) {
            best = Some(tried);
        }
    }
    best.unwrap_or_else(|| unfound(room))
}
