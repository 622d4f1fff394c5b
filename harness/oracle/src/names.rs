//! The names that a topic's record may have, by 02's rule in the harness's own
//! words. The reference takes any name.

/// From 1 byte to 249, each an ASCII letter or digit, or one of ". _ -"; a dot
/// alone and two dots are no names.
pub fn is_lawful(name: &str) -> bool {
    let allowed = |letter: char| letter.is_ascii_alphanumeric() || "._-".contains(letter);
    (1..=249).contains(&name.len()) && name.chars().all(allowed) && ![".", ".."].contains(&name)
}
