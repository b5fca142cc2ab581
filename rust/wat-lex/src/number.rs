use crate::proved;
use alloc::borrow::Cow;

/// The parts of a floating-point literal.
#[derive(Clone, Debug, PartialEq, Eq, Hash)]
pub enum Float<'a> {
    /// `nan`, with the digits of its payload, if it has any.
    Nan {
        /// The payload's hexadecimal digits after `nan:0x`, without underscores.
        val: Option<Cow<'a, str>>,
        /// `true` if the literal begins with `-`.
        negative: bool,
    },
    /// The literal `inf`.
    Inf {
        /// `true` if the literal begins with `-`.
        negative: bool,
    },
    /// A literal with digits. The parts have neither `+` nor underscores.
    Val {
        /// `true` if the digits are hexadecimal. The digits of the exponent are always decimal.
        hex: bool,
        /// The digits before the dot, without `0x`; a `-` is kept.
        integral: Cow<'a, str>,
        /// The digits after the dot, or `None` if there are none.
        fractional: Option<Cow<'a, str>>,
        /// The digits of the exponent, or `None` without an exponent; a `-` is kept.
        exponent: Option<Cow<'a, str>>,
    },
}

impl<'a> From<proved::lexer::Float<'a>> for Float<'a> {
    fn from(float: proved::lexer::Float<'a>) -> Float<'a> {
        match float {
            proved::lexer::Float::Nan { val, negative } => Float::Nan {
                val: val.map(Cow::from),
                negative,
            },
            proved::lexer::Float::Inf { negative } => Float::Inf { negative },
            proved::lexer::Float::Val {
                hex,
                integral,
                fractional,
                exponent,
            } => Float::Val {
                hex,
                integral: integral.into(),
                fractional: fractional.map(Cow::from),
                exponent: exponent.map(Cow::from),
            },
        }
    }
}
