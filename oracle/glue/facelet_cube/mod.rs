mod cube;
mod moves;

pub use cube::FaceletCube;
