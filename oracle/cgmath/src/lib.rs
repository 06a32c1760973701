//! The part of cgmath that cubesim uses: vectors, and the three right-handed rotation matrices.

#[derive(Clone, Copy, Debug, Eq, Hash, PartialEq)]
pub struct Vector3<T> {
    pub x: T,
    pub y: T,
    pub z: T,
}

impl<T> Vector3<T> {
    pub fn new(x: T, y: T, z: T) -> Self {
        Self { x, y, z }
    }
}

/// An angle in degrees.
pub struct Deg<T>(pub T);

/// A rotation matrix, row by row.
pub struct Basis3<T> {
    rows: [[T; 3]; 3],
}

pub trait Rotation3 {
    fn from_angle_x(angle: Deg<f64>) -> Self;
    fn from_angle_y(angle: Deg<f64>) -> Self;
    fn from_angle_z(angle: Deg<f64>) -> Self;
}

impl Rotation3 for Basis3<f64> {
    fn from_angle_x(angle: Deg<f64>) -> Self {
        let (s, c) = angle.0.to_radians().sin_cos();
        Self { rows: [[1.0, 0.0, 0.0], [0.0, c, -s], [0.0, s, c]] }
    }

    fn from_angle_y(angle: Deg<f64>) -> Self {
        let (s, c) = angle.0.to_radians().sin_cos();
        Self { rows: [[c, 0.0, s], [0.0, 1.0, 0.0], [-s, 0.0, c]] }
    }

    fn from_angle_z(angle: Deg<f64>) -> Self {
        let (s, c) = angle.0.to_radians().sin_cos();
        Self { rows: [[c, -s, 0.0], [s, c, 0.0], [0.0, 0.0, 1.0]] }
    }
}

pub trait Rotation {
    fn rotate_vector(&self, v: Vector3<f64>) -> Vector3<f64>;
}

impl Rotation for Basis3<f64> {
    fn rotate_vector(&self, v: Vector3<f64>) -> Vector3<f64> {
        let dot = |r: &[f64; 3]| r[0] * v.x + r[1] * v.y + r[2] * v.z;
        Vector3::new(dot(&self.rows[0]), dot(&self.rows[1]), dot(&self.rows[2]))
    }
}
