//! Text in lines of a width.

/// The words of a text in lines of at most that many characters.
pub fn wrapped(text: &str, width: usize) -> Vec<String> {
    let mut lines: Vec<String> = Vec::new();
    for word in text.split(' ') {
        match lines.last_mut() {
            Some(line) if line.chars().count() + 1 + word.chars().count() <= width => {
                line.push(' ');
                line.push_str(word);
            }
            _ => lines.push(word.into()),
        }
    }
    lines
}

/// A text in lines that begin with `start`, at most `width` wide.
pub fn lines(start: &str, text: &str, width: usize) -> String {
    let room = width - start.chars().count();
    let lines = wrapped(text, room).into_iter();
    lines.map(|line| format!("{start}{line}\n")).collect()
}

/// `1, 2 and 3`, or `none`.
pub fn listed(items: &[String]) -> String {
    match items {
        [] => "none".into(),
        [one] => one.clone(),
        [front @ .., last] => format!("{} and {last}", front.join(", ")),
    }
}
