//! The macro that reads the table of `ffi`, and makes of each row what Rust
//! needs and, for the test, what the header has to say.

/// Bytes that count up from 0. A struct made of them shows in the first byte of
/// each field where the field stands: the offset, without `offset_of`, which
/// Rust 1.63 does not have. Nor does that version see that constants without a
/// name use this function.
#[allow(dead_code)]
pub const fn counting<const SIZE: usize>() -> [u8; SIZE] {
    let mut bytes = [0; SIZE];
    let mut at = 0;
    while at < SIZE {
        bytes[at] = at as u8;
        at += 1;
    }
    bytes
}

/// Makes of the table the constants, the structs with assertions on their
/// layout, and the functions; and `in_c`, which says the same of the header.
macro_rules! header {
    (
        constants { $( $(#[$told:meta])* $constant:ident: $number:ty = $value:literal; )* }
        structs { $(
            $(#[$of_struct:meta])*
            $name:ident = $in_c:ident, size $size:literal, aligned to $align:literal {
                $( $(#[$of_field:meta])* $field:ident: $kind:ty, at $at:literal; )*
            }
        )* }
        functions { $( $function:ident($( $lent:ident: $lent_kind:ty ),*) -> $back:ty; )* }
    ) => {
        // One that is not used here is still held against the header's.
        $( $(#[$told])* #[allow(dead_code)] pub const $constant: $number = $value; )*

        $(
            $(#[$of_struct])*
            #[derive(Clone, Copy, Debug, PartialEq, Eq, Hash)]
            #[repr(C)]
            pub struct $name { $( $(#[$of_field])* pub $field: $kind, )* }

            const _: () = {
                use core::mem::{align_of, size_of, transmute};
                use crate::table::counting;
                const SIZE: usize = size_of::<$name>();
                assert!(SIZE == $size, concat!(stringify!($in_c), " has not size ", $size));
                assert!(
                    align_of::<$name>() == $align,
                    concat!(stringify!($in_c), " is not aligned to ", $align)
                );
                // SAFETY: every field is a number, an array of numbers or such a struct, so that
                // all bytes are one.
                const COUNTED: $name = unsafe { transmute::<[u8; SIZE], $name>(counting()) };
                $(
                    // SAFETY: it is the first byte of a field that is there.
                    assert!(
                        unsafe { *(&COUNTED.$field as *const $kind as *const u8) } == $at,
                        concat!(stringify!($in_c), ".", stringify!($field), " is not at ", $at)
                    );
                )*
            };
        )*

        extern "C" { $( pub fn $function($( $lent: $lent_kind ),*) -> $back; )* }

        $(
            #[cfg(test)]
            impl crate::header::InC for $name {
                fn in_c() -> String {
                    stringify!($in_c).to_string()
                }
            }
        )*

        /// Each row as a static assertion in C.
        #[cfg(test)]
        pub fn in_c() -> String {
            use crate::header::{constant, field, function, whole, InC};
            let mut text = String::new();
            $( text += &constant(stringify!($constant), $value as u64); )*
            $(
                text += &whole(stringify!($in_c), $size, $align);
                $( text += &field(stringify!($in_c), stringify!($field), &<$kind>::in_c(), $at); )*
            )*
            $( text += &function(stringify!($function), &<$back>::in_c(), &[$( <$lent_kind>::in_c() ),*]); )*
            text
        }
    };
}

pub(crate) use header;
