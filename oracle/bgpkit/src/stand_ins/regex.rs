//! For the crate `regex`. No pattern is ever matched here.

#[derive(Debug, Clone)]
pub struct Regex;

impl Regex {
    pub fn new(_pattern: &str) -> Result<Self, String> {
        Err("patterns are not part of this build".to_string())
    }

    pub fn is_match(&self, _text: &str) -> bool {
        false
    }
}
