// In the place of nalgebra's Vector3<f64>: what the Rust's files ask of it, with document 01's arithmetic. A dot product is
// (a1*b1 + a2*b2) + a3*b3, length is its root, a direction is divided by its length.
use std::ops::{Add, Div, Mul, Sub};

#[derive(Clone, Copy, Debug)]
pub struct Vector3 {
    pub x: f64,
    pub y: f64,
    pub z: f64,
}

impl Vector3 {
    pub const fn new(x: f64, y: f64, z: f64) -> Self {
        Vector3 { x, y, z }
    }

    pub fn dot(&self, o: &Vector3) -> f64 {
        (self.x * o.x + self.y * o.y) + self.z * o.z
    }

    pub fn cross(&self, o: &Vector3) -> Vector3 {
        Vector3::new(self.y * o.z - self.z * o.y, self.z * o.x - self.x * o.z, self.x * o.y - self.y * o.x)
    }

    pub fn norm(&self) -> f64 {
        self.dot(self).sqrt()
    }

    pub fn normalize(&self) -> Vector3 {
        *self / self.norm()
    }

    pub fn angle(&self, o: &Vector3) -> f64 {
        (self.dot(o) / (self.norm() * o.norm())).clamp(-1.0, 1.0).acos()
    }
}

impl From<[f64; 3]> for Vector3 {
    fn from(a: [f64; 3]) -> Self {
        Vector3::new(a[0], a[1], a[2])
    }
}

fn minus(a: &Vector3, b: &Vector3) -> Vector3 {
    Vector3::new(a.x - b.x, a.y - b.y, a.z - b.z)
}

impl Sub<&Vector3> for &Vector3 {
    type Output = Vector3;
    fn sub(self, o: &Vector3) -> Vector3 {
        minus(self, o)
    }
}

impl Sub<Vector3> for &Vector3 {
    type Output = Vector3;
    fn sub(self, o: Vector3) -> Vector3 {
        minus(self, &o)
    }
}

impl Sub for Vector3 {
    type Output = Vector3;
    fn sub(self, o: Vector3) -> Vector3 {
        minus(&self, &o)
    }
}

impl Add for Vector3 {
    type Output = Vector3;
    fn add(self, o: Vector3) -> Vector3 {
        Vector3::new(self.x + o.x, self.y + o.y, self.z + o.z)
    }
}

impl Mul<f64> for Vector3 {
    type Output = Vector3;
    fn mul(self, by: f64) -> Vector3 {
        Vector3::new(self.x * by, self.y * by, self.z * by)
    }
}

impl Mul<f64> for &Vector3 {
    type Output = Vector3;
    fn mul(self, by: f64) -> Vector3 {
        *self * by
    }
}

impl Mul<Vector3> for f64 {
    type Output = Vector3;
    fn mul(self, v: Vector3) -> Vector3 {
        v * self
    }
}

impl Div<f64> for Vector3 {
    type Output = Vector3;
    fn div(self, by: f64) -> Vector3 {
        Vector3::new(self.x / by, self.y / by, self.z / by)
    }
}
