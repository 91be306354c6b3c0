//! Stands for the crate `svgbobdoc`, which draws pictures in documentation pages.
//! The published Rust uses `transform!` only as the text of a `#[doc]` attribute,
//! so an empty text changes no instruction that is compiled.

#[macro_export]
macro_rules! transform {
    ($($text:tt)*) => {
        ""
    };
}
