//! `is_key`, `is_enter` and the like: which variant a value is.

/// A test for each variant that is named, with the feature `derive-more`.
macro_rules! is_variants {
    ($name:ident { $($variant:ident $is:ident,)* }) => {
        #[cfg(feature = "derive-more")]
        impl $name {$(
            #[doc = concat!("Whether it is `", stringify!($variant), "`.")]
            #[must_use]
            pub const fn $is(&self) -> bool {
                matches!(self, $name::$variant { .. })
            }
        )*}
    };
}
pub(crate) use is_variants;
