//! Stands in for a module of the original that is not at hand; nothing that is compared touches it.

pub struct Appearance;
pub struct Styles;
