//! What only some systems have.

/// What Unix has.
pub mod unix {
    /// What files have on Unix.
    pub mod fs {
        #[cfg(unix)]
        pub use rust::os::unix::fs::MetadataExt;

        /// The mode of a file, on a system whose files have none.
        #[cfg(not(unix))]
        pub trait MetadataExt {
            /// A mode with which everybody may read and run the file, as such a system lets them.
            fn mode(&self) -> u32;
        }

        #[cfg(not(unix))]
        impl MetadataExt for rust::fs::Metadata {
            fn mode(&self) -> u32 {
                0o755
            }
        }
    }
}
