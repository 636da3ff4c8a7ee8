//! Enumerations whose variants have a sentence each.

/// Declares one, with more variants in braces that have none.
macro_rules! sentences {
    ($(#[$doc:meta])* $enum:ident { $($more:tt)* } $($name:ident $sentence:literal)*) => {
        $(#[$doc])*
        #[derive(Clone, Copy, Debug, PartialEq, Eq)]
        pub enum $enum {
            $(#[doc = $sentence] $name,)*
            $($more)*
        }

        impl $enum {
            /// The variants that have a sentence, each with it.
            const SENTENCES: &'static [($enum, &'static str)] =
                &[$(($enum::$name, $sentence),)*];
        }
    };
}

pub(crate) use sentences;
