//! Values.

use crate::number::Number;
use std::alloc::{AllocError, Global};
use std::collections::BTreeMap;

/// An object's members, by rising names.
pub type Map<K, V> = BTreeMap<K, V>;

/// A value of JSON.
#[derive(Debug, PartialEq)]
pub enum Value {
    /// `null`.
    Null,
    /// `true` or `false`.
    Bool(bool),
    /// A number.
    Number(Number),
    /// A text.
    String(String),
    /// A list.
    Array(Vec<Value>),
    /// An object.
    Object(Map<String, Value>),
}

impl Value {
    /// A copy of `text` as a value.
    pub fn try_from_str(alloc: Global, text: &str) -> Result<Value, AllocError> {
        Ok(Value::String(String::from_str(alloc, text)?))
    }
}

impl<T: Into<Number>> From<T> for Value {
    fn from(number: T) -> Value {
        Value::Number(number.into())
    }
}

/// Puts `value` last. On an error the list is unchanged.
pub fn push(list: &mut Vec<Value>, value: Value) -> Result<(), AllocError> {
    Ok(list.push(value)?)
}

/// Sets the member `key`. On an error the map is unchanged.
pub fn put(
    map: &mut Map<String, Value>,
    alloc: Global,
    key: &str,
    value: Value,
) -> Result<(), AllocError> {
    map.insert(String::from_str(alloc, key)?, value)?;
    Ok(())
}
