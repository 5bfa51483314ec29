//! A register of named fields, with the functions that x86defs' registers have.

/// What a field is read and given as: `bool` for one bit, a number for more.
pub(crate) trait Value {
    fn to_bits(self) -> u32;
    fn from_bits(bits: u32) -> Self;
}

impl Value for bool {
    fn to_bits(self) -> u32 {
        self.into()
    }

    fn from_bits(bits: u32) -> Self {
        bits != 0
    }
}

macro_rules! number_values {
    ($($number:ty)*) => {
        $(impl Value for $number {
            fn to_bits(self) -> u32 {
                self.into()
            }

            fn from_bits(bits: u32) -> Self {
                // A field is no wider than its number.
                bits.try_into().unwrap()
            }
        })*
    };
}

number_values!(u8 u16 u32);

/// The bits that a field takes in its register.
pub(crate) const fn span(offset: u32, width: u32) -> u32 {
    (u32::MAX >> (32 - width)) << offset
}

/// `bitfield!(Register { name: type = offset, width; .. })`. A value too wide for its field panics, as in x86defs with its debug
/// assertions on.
macro_rules! bitfield {
    ($(#[$about:meta])* $register:ident { $($field:ident: $type:ty = $offset:literal, $width:literal;)* }) => {
        $(#[$about])*
        #[derive(Clone, Copy, Debug, Default, PartialEq, Eq)]
        pub struct $register(u32);

        #[allow(dead_code)]
        impl $register {
            pub const fn new() -> Self {
                Self(0)
            }

            pub const fn into_bits(self) -> u32 {
                self.0
            }

            $(
                pub fn $field(self) -> $type {
                    let span = $crate::bitfield::span($offset, $width);
                    $crate::bitfield::Value::from_bits((self.0 & span) >> $offset)
                }

                pub fn ${concat(set_, $field)}(&mut self, value: $type) {
                    let span = $crate::bitfield::span($offset, $width);
                    let bits = $crate::bitfield::Value::to_bits(value);
                    assert!(bits <= span >> $offset);
                    self.0 = self.0 & !span | bits << $offset;
                }

                pub fn ${concat(with_, $field)}(mut self, value: $type) -> Self {
                    self.${concat(set_, $field)}(value);
                    self
                }
            )*
        }

        impl From<u32> for $register {
            fn from(bits: u32) -> Self {
                Self(bits)
            }
        }

        impl From<$register> for u32 {
            fn from(register: $register) -> Self {
                register.0
            }
        }
    };
}

/// `flags!(Register { name = offset; .. })`: a register of single bits.
macro_rules! flags {
    ($(#[$about:meta])* $register:ident { $($field:ident = $offset:literal;)* }) => {
        bitfield!($(#[$about])* $register { $($field: bool = $offset, 1;)* });
    };
}
