//! Stands in for the macro of the crate's lib.rs that declares the id types of sema.rs.

macro_rules! declare_id {
    ($(#[$attr:meta])* $name:ident) => {
        $(#[$attr])*
        #[derive(Clone, Copy, Debug, Default, PartialEq, Eq, PartialOrd, Ord, Hash)]
        pub struct $name(pub usize);
        impl $name {
            /// Get the index of this id.
            pub const fn index(self) -> usize {
                self.0
            }
        }
    };
}
