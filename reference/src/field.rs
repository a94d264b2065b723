//! Fields of the store and the six changes (paper 01, "The six changes"; request (c) of paper 02).

use crate::refusal::Refusal;

/// The most members a list may have.
pub const MEMBERS: usize = 6;
/// The words that show one field: kind, count and six values.
pub const WORDS: usize = 8;

pub const ABSENT: i32 = 0;
pub const NUMBER: i32 = 1;
pub const LIST: i32 = 2;

pub const SET: u8 = 1;
pub const UNSET: u8 = 2;
pub const INC: u8 = 3;
pub const ADD: u8 = 4;
pub const PUSH: u8 = 5;
pub const PULL: u8 = 6;

/// A field in the form in which read shows it, so that showing it is a copy:
/// a number has count 1, unused values are 0. Equal fields are equal in all words.
#[derive(Clone, Copy, PartialEq, Eq, Debug)]
#[repr(C)]
pub struct Field {
    pub kind: i32,
    pub count: i32,
    pub values: [i32; MEMBERS],
}

/// One change to one place. A place is four times its document plus its field.
#[derive(Clone, Copy, PartialEq, Eq, Debug)]
pub struct Change {
    pub place: u8,
    pub kind: u8,
    pub value: i32,
}

impl Change {
    pub const NONE: Change = Change { place: 0, kind: 0, value: 0 };

    /// Whether the field's value after the change does not depend on the one before.
    pub fn settles(&self) -> bool {
        self.kind == SET || self.kind == UNSET
    }

    pub fn document(&self) -> u32 {
        u32::from(self.place) / 4
    }
}

impl Field {
    pub const EMPTY: Field = Field { kind: ABSENT, count: 0, values: [0; MEMBERS] };

    pub fn number(value: i32) -> Field {
        let mut values = [0; MEMBERS];
        values[0] = value;
        Field { kind: NUMBER, count: 1, values }
    }

    /// The eight words that show the field.
    pub fn words(&self) -> [i32; WORDS] {
        let v = &self.values;
        [self.kind, self.count, v[0], v[1], v[2], v[3], v[4], v[5]]
    }

    /// The members of a list.
    pub fn members(&self) -> &[i32] {
        &self.values[..(self.count as usize).min(MEMBERS)]
    }

    /// Makes the change on the field, or refuses with 6, 7 or 8 and leaves it as it is.
    pub fn make(&mut self, kind: u8, value: i32) -> Result<(), Refusal> {
        match kind {
            SET => *self = Field::number(value),
            UNSET => *self = Field::EMPTY,
            INC => match self.kind {
                ABSENT => *self = Field::number(value),
                NUMBER => self.values[0] = self.values[0].checked_add(value).ok_or(Refusal::SumOutside)?,
                _ => return Err(Refusal::WrongKind),
            },
            ADD | PUSH => match self.kind {
                ABSENT => {
                    *self = Field::number(value);
                    self.kind = LIST;
                }
                LIST => {
                    if kind == ADD && self.members().contains(&value) {
                        return Ok(());
                    }
                    let count = self.count as usize;
                    if count >= MEMBERS {
                        return Err(Refusal::ListFull);
                    }
                    self.values[count] = value;
                    self.count += 1;
                }
                _ => return Err(Refusal::WrongKind),
            },
            PULL => match self.kind {
                ABSENT => {}
                LIST => {
                    // The members that stay, in their order. With none left it is a list all the same.
                    let mut left = Field { kind: LIST, ..Field::EMPTY };
                    for &member in self.members().iter().filter(|&&member| member != value) {
                        left.values[left.count as usize] = member;
                        left.count += 1;
                    }
                    *self = left;
                }
                _ => return Err(Refusal::WrongKind),
            },
            _ => return Err(Refusal::OutOfRange),
        }
        Ok(())
    }
}
