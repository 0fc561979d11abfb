//! What the published builder names and is not taken: it has to compile, and is never reached.

/// Stands for the body of a function that is never called in the domain of documents 01 and 02.
pub fn not_taken(part: &str) -> ! {
    panic!("{part}: not taken")
}

#[derive(Debug, Clone, PartialEq)]
pub struct EncryptedKey;

impl EncryptedKey {
    pub fn key_id(&self) -> &str {
        not_taken("encryption keys")
    }
}
