//! `Debug` and `Display` of types that have fixed texts.

/// Implements `Debug` or `Display` by a text for each of these patterns. No item needs the trait.
macro_rules! fmt_by_text {
    (impl$(<$item:ident>)? $trait:ident for $type:ty: $($pattern:pat => $text:literal),+ $(,)?) => {
        impl$(<$item>)? std::fmt::$trait for $type {
            fn fmt(&self, f: &mut std::fmt::Formatter<'_>) -> std::fmt::Result {
                f.pad(match self {
                    $($pattern => $text),+
                })
            }
        }
    };
}

/// Implements `From` for an error that has a reason more, by a pattern of the other error.
macro_rules! error_from {
    (impl$(<$item:ident>)? for $error:ty, $other:ty: $pattern:pat => $value:expr) => {
        impl$(<$item>)? From<$other> for $error {
            fn from($pattern: $other) -> Self {
                $value
            }
        }
    };
}

/// Makes an error of a type, whose `Display` is a text for each of these patterns.
macro_rules! error_by_text {
    (impl$(<$item:ident>)? for $type:ty: $($texts:tt)+) => {
        fmt_by_text! { impl$(<$item>)? Display for $type: $($texts)+ }
        impl$(<$item>)? std::error::Error for $type {}
    };
}
