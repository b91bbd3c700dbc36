//! Edges by their names.

/// An enum of edges, and the words for each: families of them, then those with
/// a name of their own, of which there is a list.
macro_rules! name_edges {
    (
        $(#[$is:meta])* $edges:ident
        { $($(#[$are:meta])* $family:ident($($field:ident: $type:ty),*) $words:expr;)* }
        $($edge:ident $name:literal)*
    ) => {
        $(#[$is])*
        #[derive(Clone, Copy, Debug, PartialEq, Eq, PartialOrd, Ord)]
        pub enum $edges {
            $(#[doc = $name] $edge,)*
            $($(#[$are])* $family($($type),*),)*
        }

        const NAMED: &[$edges] = &[$($edges::$edge,)*];

        impl Display for $edges {
            fn fmt(&self, to: &mut Formatter<'_>) -> fmt::Result {
                match *self {
                    $($edges::$edge => to.write_str($name),)*
                    $($edges::$family($($field),*) => to.write_str(&$words),)*
                }
            }
        }
    };
}

pub(super) use name_edges;
