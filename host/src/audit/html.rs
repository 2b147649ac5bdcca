//! The audit as one page that needs nothing besides itself.

use super::row::{Outcome, Row};
use super::totals::Totals;
use crate::abi::Rule;
use crate::commands::version::VERSION;
use crate::explain::place_text;
use crate::failure::{escaped, shown};
use crate::numbers;
use std::fmt::Write;

const STYLE: &str = "\
body{font:15px/1.45 system-ui,sans-serif;color:#222;max-width:62rem;margin:2rem auto;padding:0 1rem}\
h1{font-size:1.5rem;margin-bottom:.2rem}h2{font-size:1.15rem;margin-top:2rem}\
.totals{display:flex;gap:1rem;flex-wrap:wrap;padding:0;list-style:none}\
.totals li{padding:.5rem 1rem;border-radius:.4rem;background:#eee}.totals b{font-size:1.4rem;display:block}\
.totals .wrong{background:#f9dcdc}.totals .unread{background:#fbeccb}.totals .good{background:#dcefdc}\
.sheet{display:flex;gap:1rem;border-top:1px solid #ddd;padding:1rem 0;break-inside:avoid}\
.sheet img{width:18rem;height:18rem;border:1px solid #ddd;flex:none}.sheet h3{margin:0 0 .3rem;font-size:1rem}\
.sheet p{margin:.3rem 0}table{border-collapse:collapse;width:100%;font-size:.85rem}\
td,th{text-align:left;padding:.2rem .5rem;border-top:1px solid #ddd;vertical-align:top}\
code{font-size:.75rem;color:#666;word-break:break-all}.small{color:#666;font-size:.85rem}";

const BELIEF: &str =
    "Each sheet was held against the samples of its volume by a checker that is proved to accept a file exactly \
                      when it holds the surface.";

/// A text with the signs of the page's language escaped.
fn plain(text: &str) -> String {
    escaped(text).replace('&', "&amp;").replace('<', "&lt;").replace('>', "&gt;").replace('"', "&quot;")
}

/// Bytes in letters, as a page holds a picture.
fn base64(bytes: &[u8]) -> String {
    const LETTERS: &[u8; 64] = b"ABCDEFGHIJKLMNOPQRSTUVWXYZabcdefghijklmnopqrstuvwxyz0123456789+/";
    let mut text = String::with_capacity(bytes.len().div_ceil(3) * 4);
    for part in bytes.chunks(3) {
        let word = (0..3).fold(0u32, |word, at| word << 8 | u32::from(part.get(at).copied().unwrap_or(0)));
        for at in 0..4 {
            let letter = LETTERS[(word >> (18 - 6 * at) & 63) as usize];
            text.push(if at <= part.len() { char::from(letter) } else { '=' });
        }
    }
    text
}

fn of_rule(rule: Rule) -> &'static str {
    match rule {
        Rule::Down => "down",
        Rule::Nearest => "to nearest",
    }
}

fn sums(row: &Row) -> String {
    let sum = |name: &str, sum: &Option<String>| match sum {
        Some(sum) => format!("<br>{name} sha256 <code>{sum}</code>"),
        None => String::new(),
    };
    sum("volume", &row.volume_sum) + &sum("sheet", &row.sheet_sum)
}

/// A sheet that is wrong: its picture, its names, what was found and what to do.
fn card(row: &Row, number: usize, place: usize) -> String {
    let name = plain(&shown(&row.sheet));
    let mut card = String::from("<div class=\"sheet\">");
    if let Some(png) = &row.picture {
        let _ = write!(card, "<img alt=\"{name}\" src=\"data:image/png;base64,{}\">", base64(png));
    }
    let _ = write!(card, "<div><h3>{name}</h3><p>volume {}", plain(&shown(&row.volume)));
    if let Some(start) = row.start {
        let _ = write!(card, ", start {}", place_text(start));
    }
    if let Some(rule) = row.rule {
        let _ = write!(card, ", rounded {}", of_rule(rule));
    }
    let _ = write!(card, "<br><b>refused {number} {place}</b>");
    if let Some((vertices, triangles)) = row.counts {
        let _ = write!(card, "; {vertices} vertices, {triangles} triangles");
    }
    if let Some(wrong) = row.wrong {
        let _ = write!(card, ", <b>{wrong} wrong triangles</b>");
    }
    let remedy = numbers::number(number).map_or("", |row| row.remedy);
    let (why, remedy) = (plain(&row.why), plain(remedy));
    let _ = writeln!(card, "</p><p>{why}.</p><p class=\"small\">{remedy}{}</p></div></div>", sums(row));
    card
}

/// The page: totals, what the numbers mean, then the wrong sheets, the unread and the sound ones.
pub fn file(rows: &[Row], totals: &Totals, manifest: &str, date: &str) -> Vec<u8> {
    let manifest = plain(manifest);
    let mut page =
        format!("<!DOCTYPE html>\n<html lang=\"en\"><head><meta charset=\"utf-8\"><title>Audit of {manifest}</title>");
    let _ = writeln!(page, "<style>{STYLE}</style></head><body>\n<h1>Which sheets are sound: audit of {manifest}</h1>");
    let _ = writeln!(page, "<p class=\"small\">{date}, malxuqeed {VERSION}. {BELIEF}</p>");
    page += &counts(totals);
    page += &meanings(totals);
    page += &wrong_sheets(rows);
    page += &unread_sheets(rows);
    page += &sound_sheets(rows);
    page += "</body></html>\n";
    page.into_bytes()
}

fn counts(totals: &Totals) -> String {
    let box_of = |class: &str, count: usize, words: &str| format!("<li class=\"{class}\"><b>{count}</b>{words}</li>");
    let boxes = [
        box_of("all", totals.all(), "sheets"),
        box_of("wrong", totals.refused, "refused: wrong"),
        box_of("unread", totals.unread, "unread"),
        box_of("good", totals.accepted, "accepted: sound"),
    ];
    format!("<ul class=\"totals\">{}</ul>\n", boxes.concat())
}

/// A part of the page, where it holds something.
fn part(title: &str, note: &str, content: &str) -> String {
    if content.is_empty() {
        return String::new();
    }
    let note = if note.is_empty() { String::new() } else { format!("<p class=\"small\">{note}</p>\n") };
    format!("<h2>{title}</h2>\n{note}{content}")
}

/// A table, where it has rows.
fn table(columns: &[&str], rows: &[String]) -> String {
    if rows.is_empty() {
        return String::new();
    }
    let head: String = columns.iter().map(|column| format!("<th>{column}</th>")).collect();
    format!("<table><tr>{head}</tr>\n{}</table>\n", rows.concat())
}

fn wrong_sheets(rows: &[Row]) -> String {
    let cards = rows.iter().filter_map(|row| match row.outcome {
        Outcome::Refused { number, place } => Some(card(row, number, place)),
        _ => None,
    });
    let note = "In the pictures wrong triangles are red, also where others hide them; triangles with a vertex at a wrong position are \
                orange; what is missing is purple. Where there are few, a ring is round each.";
    part("Wrong sheets", note, &cards.collect::<String>())
}

fn unread_sheets(rows: &[Row]) -> String {
    let unread = rows.iter().filter(|row| row.outcome == Outcome::Unread);
    let lines: Vec<String> = unread
        .map(|row| {
            let [volume, sheet] = [&row.volume, &row.sheet].map(|name| plain(&shown(name)));
            format!("<tr><td>{sheet}</td><td>{volume}</td><td>{}</td></tr>\n", plain(&row.why))
        })
        .collect();
    let note = "Nothing is known of these. Find the file or mend the manifest's line, and audit again.";
    part("Unread", note, &table(&["sheet", "volume", "why"], &lines))
}

fn sound_sheets(rows: &[Row]) -> String {
    let sound = rows.iter().filter(|row| row.outcome == Outcome::Accepted);
    let lines: Vec<String> = sound
        .map(|row| {
            let [volume, sheet] = [&row.volume, &row.sheet].map(|name| plain(&shown(name)));
            let (vertices, triangles) = row.counts.unwrap_or_default();
            let (start, sums) = (row.start.map_or(String::new(), place_text), sums(row));
            let rule = row.rule.map_or("", of_rule).to_string();
            let cells = [sheet + &sums, volume, start, rule, vertices.to_string(), triangles.to_string()];
            format!("<tr>{}</tr>\n", cells.map(|cell| format!("<td>{cell}</td>")).concat())
        })
        .collect();
    let note = "Each holds exactly the surface of its volume through its start.";
    part("Sound sheets", note, &table(&["sheet", "volume", "start", "rounded", "vertices", "triangles"], &lines))
}

/// What each number that came means, and what to do.
fn meanings(totals: &Totals) -> String {
    let row = |(number, count): (&usize, &usize)| {
        let remedy = numbers::number(*number).map_or("", |row| row.remedy);
        let (means, remedy) = (plain(numbers::meaning(*number)), plain(remedy));
        format!("<tr><td>{number}</td><td>{count}</td><td>{means}</td><td>{remedy}</td></tr>\n")
    };
    let rows: Vec<String> = totals.numbers.iter().map(row).collect();
    part("What the numbers mean", "", &table(&["number", "sheets", "means", "what to do"], &rows))
}

#[cfg(test)]
mod tests {
    use super::base64;

    #[test]
    fn letters() {
        let pairs =
            [("", ""), ("f", "Zg=="), ("fo", "Zm8="), ("foo", "Zm9v"), ("foob", "Zm9vYg=="), ("foobar", "Zm9vYmFy")];
        for (text, letters) in pairs {
            assert_eq!(base64(text.as_bytes()), letters);
        }
    }
}
