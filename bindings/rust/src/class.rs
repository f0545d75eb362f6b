use crate::raw;

/// The classes of scalar values.
#[derive(Clone, Copy, Debug, PartialEq, Eq, Hash)]
pub enum Class {
    Upper,
    Lower,
    Caseless,
    Mark,
    Number,
    Whitespace,
    Other,
}

const CLASSES: [Class; 7] = [
    Class::Upper,
    Class::Lower,
    Class::Caseless,
    Class::Mark,
    Class::Number,
    Class::Whitespace,
    Class::Other,
];

/// The class of a scalar value; `None`, which is refusal 6, of D800 to DFFF and above 10FFFF.
pub fn class_of(c: u32) -> Option<Class> {
    match raw::class_of(c) {
        (0, class) => Some(CLASSES[class as usize]),
        _ => None,
    }
}
