//! Bytes as hexadecimal digits.
#![warn(missing_docs)]

use std::alloc::{AllocError, Global};

/// Two digits for each byte of `data`, in lower case.
pub fn encode<T: AsRef<[u8]>>(alloc: Global, data: T) -> Result<String, AllocError> {
    let bytes = data.as_ref();
    let mut text = String::with_capacity(alloc, bytes.len().saturating_mul(2))?;
    for byte in bytes {
        text.push(digit(byte >> 4))?;
        text.push(digit(byte & 15))?;
    }
    Ok(text)
}

fn digit(value: u8) -> char {
    char::from(if value < 10 {
        b'0' + value
    } else {
        b'a' + (value - 10)
    })
}
