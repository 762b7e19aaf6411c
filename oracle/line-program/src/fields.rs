//! The fields of a line. A call gets its arguments only once the whole line has been read, so
//! that refusal 14 comes before every other.

use std::str::FromStr;

use crate::engine::cp::reason::ReasonRef;
use crate::engine::predicates::predicate::PredicateType;
use crate::refusal::LONGEST_ROOM;
use crate::refusal::Refusal;

pub(crate) struct Fields<'a> {
    rest: Option<&'a [u8]>,
}

impl<'a> Fields<'a> {
    pub(crate) fn of(line: &'a [u8]) -> Self {
        Fields { rest: Some(line) }
    }

    pub(crate) fn next(&mut self) -> Option<&'a [u8]> {
        let rest = self.rest?;
        let end = rest.iter().position(|byte| *byte == b'\t');
        self.rest = end.map(|end| &rest[end + 1..]);
        Some(&rest[..end.unwrap_or(rest.len())])
    }

    /// All that is left of the line, which must be these arguments and nothing else.
    pub(crate) fn whole<T: Argument>(mut self) -> Result<T, Refusal> {
        T::read(&mut self)
            .filter(|_| self.rest.is_none())
            .ok_or(Refusal::BadLine)
    }
}

pub(crate) trait Argument: Sized {
    fn read(fields: &mut Fields<'_>) -> Option<Self>;
}

/// A number of a variable that need not be there.
#[derive(Clone, Copy)]
pub(crate) struct Variable(pub(crate) u32);

#[derive(Clone, Copy)]
pub(crate) struct Checkpoint(pub(crate) usize);

/// A position on the trail, or past it.
#[derive(Clone, Copy)]
pub(crate) struct Position(pub(crate) usize);

/// How many places a lent slice has.
#[derive(Clone, Copy)]
pub(crate) struct Room(pub(crate) usize);

/// A predicate on a variable that need not be there.
#[derive(Clone, Copy)]
pub(crate) struct Statement {
    pub(crate) variable: Variable,
    pub(crate) kind: PredicateType,
    pub(crate) value: i32,
}

impl Argument for () {
    fn read(_: &mut Fields<'_>) -> Option<Self> {
        Some(())
    }
}

impl Argument for i32 {
    fn read(fields: &mut Fields<'_>) -> Option<Self> {
        value(fields.next()?)
    }
}

impl Argument for Vec<i32> {
    fn read(fields: &mut Fields<'_>) -> Option<Self> {
        let mut values = Vec::new();
        while let Some(field) = fields.next() {
            values.push(value(field)?);
        }
        Some(values)
    }
}

impl Argument for Variable {
    fn read(fields: &mut Fields<'_>) -> Option<Self> {
        number(fields.next()?).map(Variable)
    }
}

impl Argument for Checkpoint {
    fn read(fields: &mut Fields<'_>) -> Option<Self> {
        number(fields.next()?).map(|number| Checkpoint(number as usize))
    }
}

impl Argument for Position {
    fn read(fields: &mut Fields<'_>) -> Option<Self> {
        number(fields.next()?).map(|number| Position(number as usize))
    }
}

impl Argument for Room {
    fn read(fields: &mut Fields<'_>) -> Option<Self> {
        let places = number(fields.next()?)?;
        (places <= LONGEST_ROOM).then_some(Room(places as usize))
    }
}

impl Argument for PredicateType {
    fn read(fields: &mut Fields<'_>) -> Option<Self> {
        match fields.next()? {
            b"ge" => Some(PredicateType::LowerBound),
            b"le" => Some(PredicateType::UpperBound),
            b"ne" => Some(PredicateType::NotEqual),
            b"eq" => Some(PredicateType::Equal),
            _ => None,
        }
    }
}

impl Argument for Statement {
    fn read(fields: &mut Fields<'_>) -> Option<Self> {
        Some(Statement {
            variable: Argument::read(fields)?,
            kind: Argument::read(fields)?,
            value: Argument::read(fields)?,
        })
    }
}

impl Argument for Option<ReasonRef> {
    fn read(fields: &mut Fields<'_>) -> Option<Self> {
        match fields.next()? {
            b"-" => Some(None),
            field => Some(Some(ReasonRef(number(field)?))),
        }
    }
}

impl<A: Argument, B: Argument> Argument for (A, B) {
    fn read(fields: &mut Fields<'_>) -> Option<Self> {
        Some((A::read(fields)?, B::read(fields)?))
    }
}

impl<A: Argument, B: Argument, C: Argument> Argument for (A, B, C) {
    fn read(fields: &mut Fields<'_>) -> Option<Self> {
        Some((A::read(fields)?, B::read(fields)?, C::read(fields)?))
    }
}

fn value(field: &[u8]) -> Option<i32> {
    match field.strip_prefix(b"-") {
        Some(b"0") => None,
        Some(magnitude) => has_one_spelling(magnitude).then(|| parse(field))?,
        None => has_one_spelling(field).then(|| parse(field))?,
    }
}

fn number(field: &[u8]) -> Option<u32> {
    has_one_spelling(field).then(|| parse(field))?
}

fn has_one_spelling(digits: &[u8]) -> bool {
    digits == b"0"
        || digits.iter().all(u8::is_ascii_digit)
            && digits.first().is_some_and(|digit| *digit != b'0')
}

fn parse<T: FromStr>(field: &[u8]) -> Option<T> {
    str::from_utf8(field).ok()?.parse().ok()
}

#[cfg(test)]
mod tests {
    use super::*;

    #[test]
    fn values_reach_from_limit_to_limit() {
        assert_eq!(value(b"2147483647"), Some(i32::MAX));
        assert_eq!(value(b"2147483648"), None);
        assert_eq!(value(b"-2147483648"), Some(i32::MIN));
        assert_eq!(value(b"-2147483649"), None);
        assert_eq!(value(b"99999999999999999999"), None);
    }

    #[test]
    fn numbers_reach_from_limit_to_limit() {
        assert_eq!(number(b"0"), Some(0));
        assert_eq!(number(b"4294967295"), Some(u32::MAX));
        assert_eq!(number(b"4294967296"), None);
        assert_eq!(number(b"-1"), None);
    }

    #[test]
    fn a_number_has_one_spelling() {
        let others: [&[u8]; 12] = [
            b"",
            b"-",
            b"-0",
            b"00",
            b"01",
            b"-01",
            b"+1",
            b" 1",
            b"1 ",
            b"1\r",
            b"1\0",
            b"\xc2\xb2",
        ];
        for other in others {
            assert_eq!(value(other), None, "{other:?}");
            assert_eq!(number(other), None, "{other:?}");
        }
    }

    #[test]
    fn arguments_take_the_whole_line() {
        let read = |line| Fields::of(line).whole::<(i32, i32)>().ok();
        assert_eq!(read(b"1\t-5"), Some((1, -5)));
        assert_eq!(read(b"1\t-5\t"), None);
        assert_eq!(read(b"1"), None);
        assert_eq!(read(b"1\t\t5"), None);
    }
}
