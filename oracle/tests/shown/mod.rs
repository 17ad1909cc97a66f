//! What a document shows of commands.

/// The commands that stand behind a `$`, and what is shown below each.
pub fn examples(document: &str) -> Vec<(&str, String)> {
    let mut examples: Vec<(&str, String)> = Vec::new();
    let mut is_below = false;
    for line in document.lines() {
        let Some(shown) = line.strip_prefix("    ") else {
            is_below = false;
            continue;
        };
        if let Some(command) = shown.strip_prefix("$ ") {
            examples.push((command, String::new()));
            is_below = true;
        } else if let (true, Some((_, output))) = (is_below, examples.last_mut()) {
            *output += &format!("{shown}\n");
        }
    }
    examples
}
