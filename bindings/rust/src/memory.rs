//! Texts and lists that are refused where memory runs out. Those of the standard library end the process.

use crate::refusal::Refusal;
use std::collections::TryReserveError;
use std::fmt::{self, Write};

/// A text that grows as long as there is memory: an error is that there is none.
#[derive(Default)]
struct Growing(String);

impl Write for Growing {
    fn write_str(&mut self, more: &str) -> fmt::Result {
        self.0.try_reserve(more.len()).map_err(|_| fmt::Error)?;
        self.0.push_str(more);
        Ok(())
    }
}

/// What is printed of a value.
pub(crate) fn text_of(value: impl fmt::Display) -> Result<String, Refusal> {
    let mut text = Growing::default();
    match write!(text, "{value}") {
        Ok(()) => Ok(text.0),
        Err(fmt::Error) => Err(Refusal::Memory),
    }
}

/// Puts an item behind the others.
pub(crate) fn push<T>(list: &mut Vec<T>, item: T) -> Result<(), TryReserveError> {
    list.try_reserve(1)?;
    list.push(item);
    Ok(())
}

/// Makes a list this long, by zeros.
pub(crate) fn lengthen(list: &mut Vec<u8>, length: usize) -> Result<(), TryReserveError> {
    list.try_reserve_exact(length.saturating_sub(list.len()))?;
    list.resize(length, 0);
    Ok(())
}
