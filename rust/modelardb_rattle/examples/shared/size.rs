//! The bytes of metadata that a segment takes, M.

/// M in a word: `12`.
pub fn size(word: &str) -> Result<usize, String> {
    let size = word.parse().ok();
    let size = size.filter(|size| (1..=65_535).contains(size));
    size.ok_or_else(|| {
        format!("{word:?} is no M, the bytes of metadata: a whole number from 1 to 65535")
    })
}
