//! Texts as the proved crates have them.
use rattle_std::alloc::{AllocError, Global};
use rattle_std::string::String as Text;
use texts::text::Text as Held;

/// A text.
pub fn text(text: &str) -> Result<Text, AllocError> {
    Text::from_str(Global, text)
}

/// Words.
pub fn list_of(words: &[String]) -> Result<Vec<Text>, AllocError> {
    words.iter().map(|word| text(word)).collect()
}

/// A text as a record has it.
pub fn held(word: &str) -> Result<Held, AllocError> {
    Ok(Held::new(text(word)?))
}
