//! An enum together with the list of all its variants.

macro_rules! listed {
    ($(#[$note:meta])* enum $name:ident {
        $($(#[$about:meta])* $variant:ident,)*
    }) => {
        $(#[$note])*
        enum $name {
            $($(#[$about])* $variant,)*
        }

        impl $name {
            const ALL: &[$name] = &[$($name::$variant,)*];
        }
    };
}
