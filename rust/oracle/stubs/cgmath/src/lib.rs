//! STUB. Debian has no package of cgmath. These are the names that `globals.rs` needs to be compiled; only builtins use them,
//! a builtin's run is never compared, and whatever would compute panics.

pub struct Deg<T>(pub T);

pub struct Euler<T>(T, T, T);

impl<T> Euler<T> {
    pub fn new(x: T, y: T, z: T) -> Euler<T> {
        Euler(x, y, z)
    }
}

pub struct Vector3<T>([T; 3]);

impl From<[f32; 3]> for Vector3<f32> {
    fn from(v: [f32; 3]) -> Self {
        Vector3(v)
    }
}

impl From<Vector3<f32>> for [f32; 3] {
    fn from(v: Vector3<f32>) -> Self {
        v.0
    }
}

pub trait InnerSpace {
    fn magnitude(self) -> f32;
}

impl InnerSpace for Vector3<f32> {
    fn magnitude(self) -> f32 {
        panic!("stub: cgmath")
    }
}

pub struct Matrix3<T> {
    pub x: Vector3<T>,
    pub y: Vector3<T>,
    pub z: Vector3<T>,
}

impl From<Euler<Deg<f32>>> for Matrix3<f32> {
    fn from(_: Euler<Deg<f32>>) -> Self {
        panic!("stub: cgmath")
    }
}
