//! Numbers in hexadecimal, printed as pdb prints them.

/// `{:x}` and `{:X}` of a type around a number, with all that a format may ask.
macro_rules! hex {
    ($type:ident) => {
        impl core::fmt::LowerHex for $type {
            fn fmt(&self, f: &mut core::fmt::Formatter<'_>) -> core::fmt::Result {
                core::fmt::LowerHex::fmt(&self.0, f)
            }
        }

        impl core::fmt::UpperHex for $type {
            fn fmt(&self, f: &mut core::fmt::Formatter<'_>) -> core::fmt::Result {
                core::fmt::UpperHex::fmt(&self.0, f)
            }
        }
    };
}
pub(crate) use hex;

/// What a plain number has besides: `{}` and `{:?}` in hexadecimal, from u32 and into it.
macro_rules! hex_number {
    ($type:ident) => {
        $crate::hex::hex!($type);

        impl core::fmt::Display for $type {
            fn fmt(&self, f: &mut core::fmt::Formatter<'_>) -> core::fmt::Result {
                write!(f, "{:#x}", self.0)
            }
        }

        impl core::fmt::Debug for $type {
            fn fmt(&self, f: &mut core::fmt::Formatter<'_>) -> core::fmt::Result {
                write!(f, concat!(stringify!($type), "({})"), self)
            }
        }

        impl From<u32> for $type {
            #[inline]
            fn from(number: u32) -> Self {
                Self(number)
            }
        }

        impl From<$type> for u32 {
            #[inline]
            fn from(number: $type) -> Self {
                number.0
            }
        }
    };
}
pub(crate) use hex_number;
