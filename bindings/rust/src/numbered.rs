//! Enums whose variants have numbers.

/// Declares an enum of named numbers. A number without a name is kept: the library may be of a later version that has
/// names which this crate does not know.
macro_rules! numbered {
    ($(#[$about:meta])* $Type:ident { $($(#[$means:meta])* $Name:ident = $number:literal,)* }) => {
        $(#[$about])*
        #[derive(Clone, Copy, Debug, PartialEq, Eq, PartialOrd, Ord, Hash)]
        #[non_exhaustive]
        pub enum $Type {
            $($(#[$means])* $Name,)*
            /// A number that this version of the crate has no name for.
            #[non_exhaustive]
            Unknown {
                /// The number.
                number: u32,
            },
        }

        impl $Type {
            /// All that have names, by their numbers.
            pub const ALL: &'static [$Type] = &[$($Type::$Name,)*];

            /// The one with this number; `Unknown` if no name has it.
            #[must_use]
            pub const fn from_number(number: u32) -> $Type {
                match number {
                    $($number => $Type::$Name,)*
                    _ => $Type::Unknown { number },
                }
            }

            /// Its number, which no later version changes.
            #[must_use]
            pub const fn number(self) -> u32 {
                match self {
                    $($Type::$Name => $number,)*
                    $Type::Unknown { number } => number,
                }
            }

            /// Its name, as in the program's lines; `Unknown` if it has none.
            #[must_use]
            pub const fn name(self) -> &'static str {
                match self {
                    $($Type::$Name => stringify!($Name),)*
                    $Type::Unknown { .. } => "Unknown",
                }
            }
        }

        /// The name, or `Unknown(60)`.
        impl core::fmt::Display for $Type {
            fn fmt(&self, f: &mut core::fmt::Formatter<'_>) -> core::fmt::Result {
                match self {
                    $Type::Unknown { number } => write!(f, "Unknown({number})"),
                    known => f.pad(known.name()),
                }
            }
        }
    };
}

pub(crate) use numbered;
