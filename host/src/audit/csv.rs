//! The audit as CSV, with fixed columns.

use super::row::{Row, Value};
use std::os::unix::ffi::OsStrExt;

pub const COLUMNS: &str =
    "volume,sheet,start,verdict,number,place,vertices,triangles,wrong_triangles,volume_sha256,sheet_sha256,rule";

/// A name; in quotes where it holds what would part it.
fn name(bytes: &[u8]) -> Vec<u8> {
    let apart = |byte: &u8| matches!(byte, b',' | b';' | b'"' | b'\n' | b'\r' | b'\t');
    if !bytes.iter().any(apart) && bytes.trim_ascii() == bytes {
        return bytes.to_vec();
    }
    let mut quoted = vec![b'"'];
    for &byte in bytes {
        quoted.extend(if byte == b'"' { &b"\"\""[..] } else { std::slice::from_ref(&byte) });
    }
    quoted.push(b'"');
    quoted
}

fn field(value: &Value) -> Vec<u8> {
    match value {
        Value::Name(path) => name(path.as_os_str().as_bytes()),
        Value::Text(text) => text.clone().unwrap_or_default().into_bytes(),
        Value::Number(number) => number.map_or(String::new(), |number| number.to_string()).into_bytes(),
    }
}

pub fn file(rows: &[Row]) -> Vec<u8> {
    let mut bytes = format!("{COLUMNS}\r\n").into_bytes();
    for row in rows {
        bytes.extend(row.columns().map(|(_, value)| field(&value)).join(&b','));
        bytes.extend(b"\r\n");
    }
    bytes
}
