//! Texts without their soft hyphens.

/// A text without its soft hyphens, U+00AD. All else stays.
///
/// So a text without soft hyphens comes back after `hyphenate_text` has put some in.
///
/// ```
/// assert_eq!(hyphenation::remove_soft_hyphens("Of hy\u{ad}phen\u{ad}a\u{ad}tion"), "Of hyphenation");
/// ```
pub fn remove_soft_hyphens(text: &str) -> String {
    text.replace('\u{ad}', "")
}
