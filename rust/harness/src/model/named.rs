/// An enum of rules, each with its words.
macro_rules! named {
    ($(#[$doc:meta])* $enum:ident $($name:ident: $text:literal,)*) => {
        $(#[$doc])*
        #[derive(Debug, Clone, Copy, PartialEq, Eq)]
        pub enum $enum {
            $(#[doc = $text] $name,)*
        }

        impl $enum {
            pub const ALL: &'static [$enum] = &[$(Self::$name,)*];

            /// The rule in words.
            pub fn describe(self) -> &'static str {
                match self {
                    $(Self::$name => $text,)*
                }
            }
        }
    };
}
