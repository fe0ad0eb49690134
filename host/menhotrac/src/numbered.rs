//! Enums that stand for document 01's numbers.

/// Defines an enum with a number for each case, and the conversions both ways.
macro_rules! numbered {
    (
        $(#[$about:meta])*
        $name:ident {
            $($(#[$case_about:meta])* $case:ident = $number:literal,)+
        }
    ) => {
        $(#[$about])*
        #[derive(Clone, Copy, Debug, PartialEq, Eq)]
        pub enum $name {
            $($(#[$case_about])* $case = $number,)+
        }

        impl $name {
            /// The case with this number, if there is one.
            #[inline]
            pub const fn from_number(number: u32) -> Option<Self> {
                match number {
                    $($number => Some(Self::$case),)+
                    _ => None,
                }
            }

            /// The case's number.
            #[inline]
            pub const fn number(self) -> u32 {
                self as u32
            }
        }
    };
}

pub(crate) use numbered;
