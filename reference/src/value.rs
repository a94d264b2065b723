//! Values of fields as the judge has them, and what the six changes make of them (paper 01, "The six changes"; request
//! (c) of paper 02).
//!
//! The line program has its own meaning of the changes in `field.rs`. The two share no code, so that a fault in one of
//! them shows as a contradiction.

use crate::field::{Change, ABSENT, ADD, INC, LIST, MEMBERS, NUMBER, PULL, PUSH, SET, UNSET, WORDS};
use crate::refusal::Refusal;

#[derive(Clone, PartialEq, Eq, Debug)]
pub enum Value {
    Absent,
    Number(i32),
    List(Vec<i32>),
}

impl Value {
    /// The value after the change, or the refusal that the change meets.
    pub fn after(&self, change: &Change) -> Result<Value, Refusal> {
        let value = change.value;
        match (change.kind, self) {
            (SET, _) => Ok(Value::Number(value)),
            (UNSET, _) => Ok(Value::Absent),
            (INC, Value::Absent) => Ok(Value::Number(value)),
            (INC, Value::Number(number)) => {
                let sum = i64::from(*number) + i64::from(value);
                i32::try_from(sum).map(Value::Number).map_err(|_| Refusal::SumOutside)
            }
            (ADD | PUSH, Value::Absent) => Ok(Value::List(vec![value])),
            (ADD, Value::List(members)) if members.contains(&value) => Ok(self.clone()),
            (ADD | PUSH, Value::List(members)) if members.len() == MEMBERS => Err(Refusal::ListFull),
            (ADD | PUSH, Value::List(members)) => Ok(Value::List([&members[..], &[value]].concat())),
            (PULL, Value::Absent) => Ok(Value::Absent),
            // Every equal member goes. A list without members is not absent.
            (PULL, Value::List(members)) => {
                let mut left = members.clone();
                left.retain(|&member| member != value);
                Ok(Value::List(left))
            }
            _ => Err(Refusal::WrongKind),
        }
    }

    /// The eight words that show the value: kind, count and six values, unused ones 0.
    pub fn words(&self) -> Vec<i64> {
        let (kind, values) = match self {
            Value::Absent => (ABSENT, vec![]),
            Value::Number(number) => (NUMBER, vec![*number]),
            Value::List(members) => (LIST, members.clone()),
        };
        let mut words = vec![i64::from(kind), values.len() as i64];
        words.extend(values.into_iter().map(i64::from));
        words.resize(WORDS, 0);
        words
    }
}
