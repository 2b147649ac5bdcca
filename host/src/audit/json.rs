//! The audit as JSON: the columns of the CSV, a name and a value each.

use super::row::{Row, Value};
use super::totals::Totals;
use crate::commands::version::VERSION;

/// A text in quotes.
fn text(value: &str) -> String {
    let mut quoted = String::from('"');
    for c in value.chars() {
        match c {
            '"' | '\\' => quoted.extend(['\\', c]),
            c if c.is_control() => quoted += &format!("\\u{:04x}", u32::from(c)),
            c => quoted.push(c),
        }
    }
    quoted + "\""
}

fn value(value: &Value) -> String {
    let known = match value {
        Value::Name(path) => Some(text(&path.to_string_lossy())),
        Value::Text(known) => known.as_deref().map(text),
        Value::Number(known) => known.map(|number| number.to_string()),
    };
    known.unwrap_or_else(|| "null".to_string())
}

fn object(row: &Row) -> String {
    format!("{{{}}}", row.columns().map(|(name, of)| format!("\"{name}\": {}", value(&of))).join(", "))
}

pub fn file(rows: &[Row], totals: &Totals, date: &str) -> Vec<u8> {
    let (all, accepted, refused, unread) = (totals.all(), totals.accepted, totals.refused, totals.unread);
    let rows = rows.iter().map(object).collect::<Vec<_>>().join(",\n");
    format!(
        "{{\"tool\": \"malxuqeed {VERSION}\", \"date\": {},\n\
         \"sheets\": {all}, \"accepted\": {accepted}, \"refused\": {refused}, \"unread\": {unread},\n\
         \"rows\": [\n{rows}\n]}}\n",
        text(date)
    )
    .into_bytes()
}
