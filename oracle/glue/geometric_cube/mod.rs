mod cube;
pub(crate) mod moves;
pub(crate) mod sticker;

pub use cube::GeoCube;
pub(crate) use sticker::Sticker;
