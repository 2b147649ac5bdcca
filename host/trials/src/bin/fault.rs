//! `fault sort FROM TO`: what the bought mesher does, the vertices of a sheet sorted and its triangles not renumbered.
//! `fault count SHEET`: the count of edges by which other programs call a mesh closed.

use std::collections::HashMap;
use std::process::ExitCode;
use trials::archive;

fn parsed(name: &str) -> Result<second::Content, String> {
    let bytes = std::fs::read(name).map_err(|error| format!("{name}: {error}"))?;
    second::parse(&bytes).map_err(|(number, _)| format!("{name} is no sheet file: {number}"))
}

fn sort(from: &str, to: &str) -> Result<String, String> {
    let mut content = parsed(from)?;
    archive::sort(&mut content);
    std::fs::write(to, second::serialize(&content)).map_err(|error| format!("{to}: {error}"))?;
    Ok(format!("{to}: the {} vertices of {from} sorted by position, the triangles as they were", content.records.len()))
}

/// Directed edges between vertex numbers, with and without a reverse.
fn count(name: &str) -> Result<String, String> {
    let content = parsed(name)?;
    let mut edges = HashMap::new();
    for [a, b, c] in &content.triangles {
        for edge in [(a, b), (b, c), (c, a)] {
            *edges.entry(edge).or_insert(0usize) += 1;
        }
    }
    let single = edges.iter().filter(|((a, b), count)| edges.get(&(*b, *a)) != Some(*count)).count();
    let says = if single == 0 { "closed" } else { "open" };
    Ok(format!(
        "{name}: {} triangles, {} edges, {single} without a partner: {says}",
        content.triangles.len(),
        edges.len() / 2
    ))
}

fn main() -> ExitCode {
    let words: Vec<String> = std::env::args().skip(1).collect();
    let words: Vec<&str> = words.iter().map(String::as_str).collect();
    let said = match words[..] {
        ["sort", from, to] => sort(from, to),
        ["count", name] => count(name),
        _ => Err("fault sort FROM TO, or fault count SHEET".to_string()),
    };
    match said {
        Ok(text) => {
            println!("{text}");
            ExitCode::SUCCESS
        }
        Err(text) => {
            eprintln!("{text}");
            ExitCode::from(2)
        }
    }
}
