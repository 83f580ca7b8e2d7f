//! Handles of another channel's names around this one's. They have this one's methods, and those that the other channel has otherwise.

/// A handle around this one's of the same name.
macro_rules! wrapped {
    ($name:ident) => {
        pub struct $name<T>(vahepito::$name<T>);

        impl<T> Clone for $name<T> {
            fn clone(&self) -> $name<T> {
                $name(self.0.clone())
            }
        }

        impl<T> std::ops::Deref for $name<T> {
            type Target = vahepito::$name<T>;

            fn deref(&self) -> &vahepito::$name<T> {
                &self.0
            }
        }
    };
}

pub(crate) use wrapped;
