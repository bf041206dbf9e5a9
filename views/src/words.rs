//! Sentences laid out in lines.

/// Words in lines of at most so many characters, which count what stands before the first
/// line and before each of the others.
pub fn wrap(text: &str, width: usize, first: &str, next: &str) -> String {
    let mut lines = Vec::new();
    let mut line = String::from(first);
    let mut blank = true;
    for word in text.split_whitespace() {
        if !blank && line.chars().count() + 1 + word.chars().count() > width {
            lines.push(std::mem::replace(&mut line, next.into()));
            blank = true;
        }
        if !blank {
            line.push(' ');
        }
        line.push_str(word);
        blank = false;
    }
    lines.push(line);
    lines.join("\n")
}

/// A name in capitals: `RunStart` is `RUN_START`, `time_cpu` is `TIME_CPU`.
pub fn capitals(name: &str) -> String {
    let mut capitals = String::new();
    for c in name.chars() {
        if c.is_uppercase() && !capitals.is_empty() {
            capitals.push('_');
        }
        capitals.extend(c.to_uppercase());
    }
    capitals
}

#[cfg(test)]
mod tests {
    use super::*;

    #[test]
    fn lines_break_between_words() {
        let long = "word ".repeat(40);
        let lines = wrap(&long, 50, "/* ", "   ");
        assert!(lines.lines().all(|line| line.len() <= 50));
        assert_eq!(lines.split_whitespace().count(), 41);
        assert!(lines.starts_with("/* word"));
    }

    #[test]
    fn names_in_capitals() {
        assert_eq!(capitals("RunStart"), "RUN_START");
        assert_eq!(capitals("time_cpu"), "TIME_CPU");
    }
}
