//! The values of a record.

/// A value that goes into a cell or a member of an object.
#[derive(Clone, Debug, PartialEq)]
pub enum Value {
    None,
    Bool(bool),
    Whole(i128),
    /// A number in decimals, as it is to stand.
    Decimal(String),
    Float(f64),
    Text(String),
    /// A fraction of chips as text.
    Fraction(String),
    List(Vec<Members>),
}

/// The members of an object, in order.
pub type Members = Vec<(&'static str, Value)>;

impl Value {
    pub fn text(text: impl Into<String>) -> Self {
        Value::Text(text.into())
    }

    pub fn whole(number: impl Into<i128>) -> Self {
        Value::Whole(number.into())
    }
}

impl<T: Into<Value>> From<Option<T>> for Value {
    fn from(value: Option<T>) -> Self {
        value.map_or(Value::None, T::into)
    }
}

impl From<u64> for Value {
    fn from(number: u64) -> Self {
        Value::whole(number)
    }
}

impl From<usize> for Value {
    fn from(number: usize) -> Self {
        Value::Whole(number as i128)
    }
}

impl From<&str> for Value {
    fn from(text: &str) -> Self {
        Value::text(text)
    }
}
