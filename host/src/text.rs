//! Paragraphs laid out for a terminal.

const WIDTH: usize = 100;

/// Words in lines of at most `WIDTH`, each behind a margin.
pub fn indented(margin: &str, paragraph: &str) -> String {
    let mut text = String::new();
    let mut line = margin.to_string();
    for word in paragraph.split_whitespace() {
        if line.len() > margin.len() && line.chars().count() + 1 + word.chars().count() > WIDTH {
            text += &format!("{line}\n");
            line = margin.to_string();
        }
        if line.len() > margin.len() {
            line.push(' ');
        }
        line += word;
    }
    text + &format!("{line}\n")
}

/// Paragraphs parted by empty lines. One that begins with spaces is an example and stays as it is.
pub fn filled(text: &str) -> String {
    let laid = |paragraph: &str| {
        if paragraph.starts_with(' ') {
            format!("{paragraph}\n")
        } else {
            indented("", paragraph)
        }
    };
    text.split("\n\n").map(laid).collect::<Vec<_>>().join("\n")
}
