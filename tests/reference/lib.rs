//! The frame history, read a second time from the words of documents 01 and 02 and from document 001's sets.
//! It is written to be clear, not fast, and shares no text with the library.
pub mod calls;
pub mod doubles;
pub mod examples;
pub mod history;
pub mod laws;
pub mod places;
pub mod record;
pub mod saved;
pub mod script;
pub mod sound;
pub mod windows;
