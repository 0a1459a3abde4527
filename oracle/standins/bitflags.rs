//! Stand-in for the crate bitflags 2: only what the given text uses.
//! Attributes (derives among them) are passed through to the struct.

#[macro_export]
macro_rules! bitflags {
    (
        $(#[$attribute:meta])*
        $visibility:vis struct $name:ident: $bits:ty {
            $(const $flag:ident = $value:expr;)*
        }
    ) => {
        $(#[$attribute])*
        $visibility struct $name {
            bits: $bits,
        }

        #[allow(dead_code)]
        impl $name {
            $(pub const $flag: Self = Self { bits: $value };)*

            /// Bits of no named flag are dropped.
            pub const fn from_bits_truncate(bits: $bits) -> Self {
                Self { bits: bits & (0 $(| $value)*) }
            }

            pub const fn bits(&self) -> $bits {
                self.bits
            }

            /// Every bit of `other` is set.
            pub const fn contains(&self, other: Self) -> bool {
                self.bits & other.bits == other.bits
            }

            /// Some bit of `other` is set.
            pub const fn intersects(&self, other: Self) -> bool {
                self.bits & other.bits != 0
            }

            pub fn set(&mut self, other: Self, value: bool) {
                if value {
                    self.bits |= other.bits;
                } else {
                    self.bits &= !other.bits;
                }
            }
        }
    };
}
