//! A stand-in for the crate `bitflags`, as far as the compared sources use it.
//!
//! Every flags type there names all eight bits of its byte, so no rule about unnamed bits is needed:
//! a flags type is a byte with operators.

#![no_std]

/// Declares a type of flags over a byte.
#[macro_export]
macro_rules! bitflags {
    (
        $(#[$outer:meta])*
        $vis:vis struct $Name:ident: u8 {
            $( $(#[$inner:meta])* const $Flag:ident = $value:expr; )*
        }
    ) => {
        $(#[$outer])*
        $vis struct $Name(u8);

        impl $Name {
            $( $(#[$inner])* pub const $Flag: Self = Self($value); )*

            /// No bit.
            pub const fn empty() -> Self {
                Self(0)
            }

            /// The flags of a byte, all of its bits kept.
            pub const fn from_bits_retain(bits: u8) -> Self {
                Self(bits)
            }

            /// The byte.
            pub const fn bits(&self) -> u8 {
                self.0
            }

            /// Whether all bits of the other are set.
            pub const fn contains(&self, other: Self) -> bool {
                self.0 & other.0 == other.0
            }

            /// Whether a bit of the other is set.
            pub const fn intersects(&self, other: Self) -> bool {
                self.0 & other.0 != 0
            }

            /// The bits of both.
            pub const fn union(self, other: Self) -> Self {
                Self(self.0 | other.0)
            }
        }

        impl ::core::ops::BitOr for $Name {
            type Output = Self;

            fn bitor(self, other: Self) -> Self {
                Self(self.0 | other.0)
            }
        }

        impl ::core::ops::BitOrAssign for $Name {
            fn bitor_assign(&mut self, other: Self) {
                self.0 |= other.0;
            }
        }

        impl ::core::ops::BitAnd for $Name {
            type Output = Self;

            fn bitand(self, other: Self) -> Self {
                Self(self.0 & other.0)
            }
        }

        impl ::core::ops::BitXor for $Name {
            type Output = Self;

            fn bitxor(self, other: Self) -> Self {
                Self(self.0 ^ other.0)
            }
        }

        impl ::core::ops::Sub for $Name {
            type Output = Self;

            fn sub(self, other: Self) -> Self {
                Self(self.0 & !other.0)
            }
        }
    };
}
