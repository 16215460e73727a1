//! What all types of few values share, each value with a number and a name: read by either, written by
//! its name; and short texts with the width that the caller asks for.

use core::fmt::{self, Write};

/// The number and the name of a type that has `ALL`, `number`, `from_number` and `name`.
macro_rules! numbered_and_named {
    ($type:ident) => {
        /// The name, with the width that is asked for.
        impl core::fmt::Display for $type {
            fn fmt(&self, f: &mut core::fmt::Formatter<'_>) -> core::fmt::Result {
                f.pad(self.name())
            }
        }

        /// By its name, in capitals or not; refusal 12 for any other text.
        impl core::str::FromStr for $type {
            type Err = $crate::Refusal;

            fn from_str(text: &str) -> Result<Self, $crate::Refusal> {
                let called = |one: &Self| one.name().eq_ignore_ascii_case(text);
                let found = Self::ALL.into_iter().find(called);
                found.ok_or($crate::Refusal::Number)
            }
        }

        /// As `from_number`.
        impl TryFrom<u8> for $type {
            type Error = $crate::Refusal;

            fn try_from(number: u8) -> Result<Self, $crate::Refusal> {
                Self::from_number(number)
            }
        }

        impl From<$type> for u8 {
            fn from(one: $type) -> Self {
                one.number()
            }
        }
    };
}
pub(crate) use numbered_and_named;

/// A text of at most 128 bytes, by value.
struct Short {
    bytes: [u8; 128],
    length: usize,
}

impl Write for Short {
    fn write_str(&mut self, text: &str) -> fmt::Result {
        let end = self.length + text.len();
        let room = self.bytes.get_mut(self.length..end).ok_or(fmt::Error)?;
        room.copy_from_slice(text.as_bytes());
        self.length = end;
        Ok(())
    }
}

/// Writes a text of at most 128 bytes with the width that is asked for, without the heap.
pub(crate) fn pad(f: &mut fmt::Formatter<'_>, text: fmt::Arguments<'_>) -> fmt::Result {
    let mut short = Short {
        bytes: [0; 128],
        length: 0,
    };
    short.write_fmt(text)?;
    let bytes = short.bytes.get(..short.length).ok_or(fmt::Error)?;
    f.pad(core::str::from_utf8(bytes).map_err(|_| fmt::Error)?)
}

#[cfg(test)]
mod tests {
    use super::pad;
    use core::fmt;
    use std::format;
    use std::string::String;

    struct Padded<'a>(&'a str);

    impl fmt::Display for Padded<'_> {
        fn fmt(&self, f: &mut fmt::Formatter<'_>) -> fmt::Result {
            pad(f, format_args!("{}{}", self.0, 1))
        }
    }

    #[test]
    fn width_and_side() {
        assert_eq!(format!("{}|", Padded("ab")), "ab1|");
        assert_eq!(format!("{:5}|", Padded("ab")), "ab1  |");
        assert_eq!(format!("{:>5}|", Padded("ab")), "  ab1|");
        assert_eq!(format!("{:-^6}|", Padded("ab")), "-ab1--|");
    }

    #[test]
    fn up_to_128_bytes() {
        let text = "x".repeat(127);
        assert_eq!(format!("{}", Padded(&text)), format!("{text}1"));
        let mut out = String::new();
        assert!(fmt::write(&mut out, format_args!("{}", Padded(&"x".repeat(128)))).is_err());
    }
}
