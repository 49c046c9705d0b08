//! The four kinds of address. Each is a type of its own, so that one can't be passed for another;
//! `AddressMap` tells what they are and how one becomes another.

use core::cmp::Ordering;
use core::fmt;
use core::ops::{Add, AddAssign, Sub};

use crate::hex::hex_number;

macro_rules! virtual_address {
    ($(#[$doc:meta])* $type:ident) => {
        $(#[$doc])*
        #[derive(Clone, Copy, Default, Eq, Hash, Ord, PartialEq, PartialOrd)]
        pub struct $type(
            /// The address, relative to the image base.
            pub u32,
        );

        hex_number!($type);

        impl $type {
            /// Checked addition of an offset. Returns `None` if overflow occurred.
            #[inline]
            pub fn checked_add(self, offset: u32) -> Option<Self> {
                self.0.checked_add(offset).map(Self)
            }

            /// Checked computation of an offset between two addresses. Returns `None` if `other` is
            /// larger.
            #[inline]
            pub fn checked_sub(self, other: Self) -> Option<u32> {
                self.0.checked_sub(other.0)
            }

            /// Saturating addition of an offset, clipped at the numeric bounds.
            #[inline]
            pub fn saturating_add(self, offset: u32) -> Self {
                Self(self.0.saturating_add(offset))
            }

            /// Saturating computation of an offset between two addresses, clipped at zero.
            #[inline]
            pub fn saturating_sub(self, other: Self) -> u32 {
                self.0.saturating_sub(other.0)
            }

            /// Wrapping (modular) addition of an offset.
            #[inline]
            pub fn wrapping_add(self, offset: u32) -> Self {
                Self(self.0.wrapping_add(offset))
            }

            /// Wrapping (modular) computation of an offset between two addresses.
            #[inline]
            pub fn wrapping_sub(self, other: Self) -> u32 {
                self.0.wrapping_sub(other.0)
            }
        }

        impl Sub for $type {
            type Output = u32;

            /// The offset between two addresses. Panics in every build if `other` is larger.
            fn sub(self, other: Self) -> u32 {
                self.checked_sub(other).expect("an offset below zero")
            }
        }
    };
}

virtual_address! {
    /// A Relative Virtual Address as it appears in a PE file: what a sample or a stack trace has.
    Rva
}

virtual_address! {
    /// A Relative Virtual Address before the executable was rearranged, as a PDB uses it.
    PdbInternalRva
}

macro_rules! section_offset {
    ($(#[$doc:meta])* $type:ident) => {
        $(#[$doc])*
        #[derive(Clone, Copy, Default, Eq, Hash, PartialEq)]
        pub struct $type {
            /// The offset from the start of the section.
            pub offset: u32,
            /// The section's number from 1; 0 is no section.
            pub section: u16,
        }

        impl $type {
            /// Creates a new section offset.
            #[inline]
            pub fn new(section: u16, offset: u32) -> Self {
                Self { offset, section }
            }

            /// Returns whether this section offset points to a valid section or into the void.
            #[inline]
            pub fn is_valid(self) -> bool {
                self.section != 0
            }

            /// Checked addition of an offset. Returns `None` if overflow occurred.
            #[inline]
            pub fn checked_add(self, offset: u32) -> Option<Self> {
                let offset = self.offset.checked_add(offset)?;
                Some(Self { offset, ..self })
            }

            /// Saturating addition of an offset, clipped at the numeric bounds.
            #[inline]
            pub fn saturating_add(self, offset: u32) -> Self {
                Self::new(self.section, self.offset.saturating_add(offset))
            }

            /// Wrapping (modular) addition of an offset.
            #[inline]
            pub fn wrapping_add(self, offset: u32) -> Self {
                Self::new(self.section, self.offset.wrapping_add(offset))
            }
        }

        impl PartialOrd for $type {
            /// Compares offsets in one section; those of two have no order.
            #[inline]
            fn partial_cmp(&self, other: &Self) -> Option<Ordering> {
                (self.section == other.section).then(|| self.offset.cmp(&other.offset))
            }
        }

        impl fmt::Debug for $type {
            fn fmt(&self, f: &mut fmt::Formatter<'_>) -> fmt::Result {
                f.debug_struct(stringify!($type))
                    .field("section", &format_args!("{:#x}", self.section))
                    .field("offset", &format_args!("{:#x}", self.offset))
                    .finish()
            }
        }
    };
}

section_offset! {
    /// An offset into a section of the executable.
    SectionOffset
}

section_offset! {
    /// An offset into a section of the executable before it was rearranged, as a PDB stores it.
    PdbInternalSectionOffset
}

macro_rules! plus_offset {
    ($($type:ty),*) => {$(
        impl Add<u32> for $type {
            type Output = Self;

            /// Adds an offset. Panics in every build where the sum does not fit: a wrapped address
            /// would be drawn in the wrong place.
            fn add(self, offset: u32) -> Self {
                self.checked_add(offset).expect("an address past 32 bits")
            }
        }

        impl AddAssign<u32> for $type {
            /// Adds an offset, as `+` does.
            fn add_assign(&mut self, offset: u32) {
                *self = *self + offset;
            }
        }
    )*};
}

plus_offset!(Rva, PdbInternalRva, SectionOffset, PdbInternalSectionOffset);
