//! The part of the `bitflags` crate, version 2, that the kernel's text uses: a
//! struct around a number, named constants, and the set operations on them.
//! Derives are written out by the user of the macro, as in version 2.

#[macro_export]
macro_rules! bitflags {
    (
        $(#[$outer:meta])*
        $vis:vis struct $name:ident: $number:ty {
            $( $(#[$inner:meta])* const $flag:ident = $value:expr; )*
        }
    ) => {
        $(#[$outer])*
        $vis struct $name($number);

        impl $name {
            $( $(#[$inner])* pub const $flag: Self = Self($value); )*

            pub const fn empty() -> Self {
                Self(0)
            }

            pub const fn bits(&self) -> $number {
                self.0
            }

            pub const fn from_bits_truncate(bits: $number) -> Self {
                Self(bits & (0 $( | $value )*))
            }

            pub const fn contains(&self, other: Self) -> bool {
                self.0 & other.0 == other.0
            }
        }

        impl ::core::ops::BitAnd for $name {
            type Output = Self;
            fn bitand(self, other: Self) -> Self {
                Self(self.0 & other.0)
            }
        }

        impl ::core::ops::BitOr for $name {
            type Output = Self;
            fn bitor(self, other: Self) -> Self {
                Self(self.0 | other.0)
            }
        }
    };
}
