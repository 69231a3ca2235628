//! A stand-in for nalgebra: the types and operations that docs/src calls, and no others, each in the order of
//! docs/ARITHMETIC.md. It is not nalgebra: nothing of nalgebra's own code was looked at or compared.
//!
//! [scope] marks an order that the scope states, [textbook] one that the scope and docs/src leave open (from the left),
//! [unreached] what no compared call uses for its answer: it has to compile, and its bits mean nothing.
use std::ops::{Add, Deref, Div, DivAssign, Index, IndexMut, Mul, Neg, Sub};

/// R rows, C columns, by column.
#[derive(Clone, Copy, Debug, PartialEq)]
#[repr(C)]
pub struct SMatrix<T, const R: usize, const C: usize> {
    columns: [[T; R]; C],
}
pub type SVector<T, const D: usize> = SMatrix<T, D, 1>;
pub type Vector3<T> = SMatrix<T, 3, 1>;
pub type Matrix3<T> = SMatrix<T, 3, 3>;
pub type Matrix4<T> = SMatrix<T, 4, 4>;

impl<const R: usize, const C: usize> SMatrix<f64, R, C> {
    fn made(f: impl Fn(usize, usize) -> f64) -> Self {
        let mut out = Self::zeros();
        for c in 0..C {
            for r in 0..R {
                out.columns[c][r] = f(r, c);
            }
        }
        out
    }
    pub fn zeros() -> Self {
        SMatrix {
            columns: [[0.0; R]; C],
        }
    }
    pub fn identity() -> Self {
        Self::made(|r, c| if r == c { 1.0 } else { 0.0 })
    }
    pub fn from_column_slice(s: &[f64]) -> Self {
        Self::made(|r, c| s[c * R + r])
    }
    pub fn as_slice(&self) -> &[f64] {
        self.columns.as_flattened()
    }
    pub fn as_mut_slice(&mut self) -> &mut [f64] {
        self.columns.as_flattened_mut()
    }
    pub fn iter(&self) -> std::slice::Iter<'_, f64> {
        self.as_slice().iter()
    }
    pub fn transpose(&self) -> SMatrix<f64, C, R> {
        SMatrix::made(|r, c| self.columns[r][c])
    }
    /// [scope] three values: (x² + y²) + z². [unreached] more values.
    pub fn norm_squared(&self) -> f64 {
        let v = self.as_slice();
        let mut sum = v[0] * v[0];
        for x in &v[1..] {
            sum += x * x;
        }
        sum
    }
    pub fn norm(&self) -> f64 {
        self.norm_squared().sqrt()
    }
    pub fn fixed_view_mut<const VR: usize, const VC: usize>(
        &mut self,
        r: usize,
        c: usize,
    ) -> ViewMut<'_, R, C, VR, VC> {
        ViewMut { of: self, r, c }
    }
    pub fn fixed_rows_mut<const VR: usize>(&mut self, r: usize) -> ViewMut<'_, R, C, VR, C> {
        ViewMut { of: self, r, c: 0 }
    }
    pub fn fixed_rows<const VR: usize>(&self, r: usize) -> View<'_, R, C, VR, C> {
        View { of: self, r, c: 0 }
    }
    pub fn view_mut(&mut self, at: (usize, usize), shape: (usize, usize)) -> AnyViewMut<'_, R, C> {
        AnyViewMut {
            of: self,
            at,
            shape,
        }
    }
}

pub struct ViewMut<'a, const R: usize, const C: usize, const VR: usize, const VC: usize> {
    of: &'a mut SMatrix<f64, R, C>,
    r: usize,
    c: usize,
}
impl<const R: usize, const C: usize, const VR: usize, const VC: usize> ViewMut<'_, R, C, VR, VC> {
    pub fn copy_from(&mut self, m: &SMatrix<f64, VR, VC>) {
        for c in 0..VC {
            for r in 0..VR {
                self.of.columns[self.c + c][self.r + r] = m.columns[c][r];
            }
        }
    }
}
pub struct AnyViewMut<'a, const R: usize, const C: usize> {
    of: &'a mut SMatrix<f64, R, C>,
    at: (usize, usize),
    shape: (usize, usize),
}
impl<const R: usize, const C: usize> AnyViewMut<'_, R, C> {
    pub fn copy_from<const VR: usize, const VC: usize>(&mut self, m: &SMatrix<f64, VR, VC>) {
        assert_eq!(self.shape, (VR, VC));
        self.of
            .fixed_view_mut::<VR, VC>(self.at.0, self.at.1)
            .copy_from(m);
    }
}
pub struct View<'a, const R: usize, const C: usize, const VR: usize, const VC: usize> {
    of: &'a SMatrix<f64, R, C>,
    r: usize,
    c: usize,
}
impl<const R: usize, const C: usize, const VR: usize, const VC: usize> View<'_, R, C, VR, VC> {
    pub fn into_owned(self) -> SMatrix<f64, VR, VC> {
        SMatrix::made(|r, c| self.of.columns[self.c + c][self.r + r])
    }
}

impl<const R: usize> From<[f64; R]> for SMatrix<f64, R, 1> {
    fn from(a: [f64; R]) -> Self {
        SMatrix { columns: [a] }
    }
}
impl<const R: usize, const C: usize> Index<(usize, usize)> for SMatrix<f64, R, C> {
    type Output = f64;
    fn index(&self, (r, c): (usize, usize)) -> &f64 {
        &self.columns[c][r]
    }
}
impl<const R: usize, const C: usize> IndexMut<(usize, usize)> for SMatrix<f64, R, C> {
    fn index_mut(&mut self, (r, c): (usize, usize)) -> &mut f64 {
        &mut self.columns[c][r]
    }
}
impl<const R: usize, const C: usize> Index<usize> for SMatrix<f64, R, C> {
    type Output = f64;
    fn index(&self, i: usize) -> &f64 {
        &self.as_slice()[i]
    }
}
impl<const R: usize, const C: usize> IndexMut<usize> for SMatrix<f64, R, C> {
    fn index_mut(&mut self, i: usize) -> &mut f64 {
        &mut self.as_mut_slice()[i]
    }
}

impl SMatrix<f64, 3, 1> {
    pub fn new(x: f64, y: f64, z: f64) -> Self {
        [x, y, z].into()
    }
    /// [textbook] a.y·b.z - a.z·b.y, and so on round.
    pub fn cross(&self, b: &Self) -> Self {
        Self::new(
            self.y * b.z - self.z * b.y,
            self.z * b.x - self.x * b.z,
            self.x * b.y - self.y * b.x,
        )
    }
}
impl SMatrix<f64, 4, 1> {
    pub fn new(a: f64, b: f64, c: f64, d: f64) -> Self {
        [a, b, c, d].into()
    }
}
impl SMatrix<f64, 3, 3> {
    /// By row.
    #[allow(clippy::too_many_arguments)]
    pub fn new(a: f64, b: f64, c: f64, d: f64, e: f64, f: f64, g: f64, h: f64, i: f64) -> Self {
        SMatrix {
            columns: [[a, d, g], [b, e, h], [c, f, i]],
        }
    }
}
#[repr(C)]
pub struct XYZ {
    pub x: f64,
    pub y: f64,
    pub z: f64,
}
impl Deref for SMatrix<f64, 3, 1> {
    type Target = XYZ;
    fn deref(&self) -> &XYZ {
        // Three f64 in a row, both of them with C's layout.
        unsafe { &*(self as *const Self as *const XYZ) }
    }
}

// Value by value: no order to choose. A product of two f64 doesn't depend on which stands first.
impl<const R: usize, const C: usize> Add for SMatrix<f64, R, C> {
    type Output = Self;
    fn add(self, b: Self) -> Self {
        Self::made(|r, c| self.columns[c][r] + b.columns[c][r])
    }
}
impl<const R: usize, const C: usize> Sub for SMatrix<f64, R, C> {
    type Output = Self;
    fn sub(self, b: Self) -> Self {
        Self::made(|r, c| self.columns[c][r] - b.columns[c][r])
    }
}
impl<const R: usize, const C: usize> Neg for SMatrix<f64, R, C> {
    type Output = Self;
    fn neg(self) -> Self {
        Self::made(|r, c| -self.columns[c][r])
    }
}
impl<const R: usize, const C: usize> Mul<f64> for SMatrix<f64, R, C> {
    type Output = Self;
    fn mul(self, k: f64) -> Self {
        Self::made(|r, c| self.columns[c][r] * k)
    }
}
impl<const R: usize, const C: usize> Mul<SMatrix<f64, R, C>> for f64 {
    type Output = SMatrix<f64, R, C>;
    fn mul(self, m: SMatrix<f64, R, C>) -> SMatrix<f64, R, C> {
        SMatrix::made(|r, c| self * m.columns[c][r])
    }
}
/// [textbook] each value divided by k, as for the quaternion, and not multiplied by 1/k.
impl<const R: usize, const C: usize> Div<f64> for SMatrix<f64, R, C> {
    type Output = Self;
    fn div(self, k: f64) -> Self {
        Self::made(|r, c| self.columns[c][r] / k)
    }
}
impl<const R: usize, const C: usize> DivAssign<f64> for SMatrix<f64, R, C> {
    fn div_assign(&mut self, k: f64) {
        *self = *self / k;
    }
}
/// [scope] "Products sum columns in rising order." [textbook] The sum starts with the first product, not with +0.
impl<const R: usize, const K: usize, const C: usize> Mul<SMatrix<f64, K, C>>
    for SMatrix<f64, R, K>
{
    type Output = SMatrix<f64, R, C>;
    fn mul(self, b: SMatrix<f64, K, C>) -> SMatrix<f64, R, C> {
        SMatrix::made(|r, c| {
            let mut sum = self.columns[0][r] * b.columns[c][0];
            for k in 1..K {
                sum += self.columns[k][r] * b.columns[c][k];
            }
            sum
        })
    }
}
impl<const N: usize> SMatrix<f64, N, N> {
    /// [unreached] Gauss and Jordan with the largest pivot. Only the SGal(3) Jacobian inverses ask.
    pub fn try_inverse(self) -> Option<Self> {
        let (mut a, mut b) = (self, Self::identity());
        for k in 0..N {
            let mut p = k;
            for r in k + 1..N {
                if a[(r, k)].abs() > a[(p, k)].abs() {
                    p = r;
                }
            }
            let pivot = a[(p, k)];
            if pivot == 0.0 || !pivot.is_finite() {
                return None;
            }
            for c in 0..N {
                a.columns[c].swap(k, p);
                b.columns[c].swap(k, p);
                a[(k, c)] /= pivot;
                b[(k, c)] /= pivot;
            }
            for r in (0..N).filter(|r| *r != k) {
                let f = a[(r, k)];
                for c in 0..N {
                    let (x, y) = (f * a[(k, c)], f * b[(k, c)]);
                    a[(r, c)] -= x;
                    b[(r, c)] -= y;
                }
            }
        }
        Some(b)
    }
}

#[derive(Clone, Copy, Debug, PartialEq)]
pub struct Quaternion<T> {
    pub w: T,
    pub i: T,
    pub j: T,
    pub k: T,
}
impl Quaternion<f64> {
    pub fn new(w: f64, i: f64, j: f64, k: f64) -> Self {
        Quaternion { w, i, j, k }
    }
    /// [scope] (x² + z²) + (y² + w²).
    pub fn norm(&self) -> f64 {
        ((self.i * self.i + self.k * self.k) + (self.j * self.j + self.w * self.w)).sqrt()
    }
    /// [scope] each value divided by the norm.
    pub fn normalize(&self) -> Self {
        let n = self.norm();
        Quaternion::new(self.w / n, self.i / n, self.j / n, self.k / n)
    }
    fn vector(&self) -> Vector3<f64> {
        Vector3::new(self.i, self.j, self.k)
    }
}
/// [textbook] Hamilton's product, terms in the order of the left factor's w, x, y, z, added from the left.
impl Mul for Quaternion<f64> {
    type Output = Self;
    fn mul(self, b: Self) -> Self {
        let a = self;
        Quaternion::new(
            a.w * b.w - a.i * b.i - a.j * b.j - a.k * b.k,
            a.w * b.i + a.i * b.w + a.j * b.k - a.k * b.j,
            a.w * b.j - a.i * b.k + a.j * b.w + a.k * b.i,
            a.w * b.k + a.i * b.j - a.j * b.i + a.k * b.w,
        )
    }
}

#[derive(Clone, Copy, Debug, PartialEq)]
pub struct Unit<T> {
    value: T,
}
impl<T> Deref for Unit<T> {
    type Target = T;
    fn deref(&self) -> &T {
        &self.value
    }
}
impl<T> Unit<T> {
    /// As given, unchecked.
    pub fn new_unchecked(value: T) -> Self {
        Unit { value }
    }
}
/// [unreached] the axes of from_axis_angle.
impl Unit<Vector3<f64>> {
    pub fn new_normalize(v: Vector3<f64>) -> Self {
        Unit {
            value: v / v.norm(),
        }
    }
    pub fn try_new(v: Vector3<f64>, least: f64) -> Option<Self> {
        let n = v.norm();
        (n > least).then(|| Unit { value: v / n })
    }
}

pub type UnitQuaternion<T> = Unit<Quaternion<T>>;
impl Unit<Quaternion<f64>> {
    /// [scope] normalises, once.
    pub fn from_quaternion(q: Quaternion<f64>) -> Self {
        Unit {
            value: q.normalize(),
        }
    }
    pub fn quaternion(&self) -> &Quaternion<f64> {
        &self.value
    }
    /// [scope] negates x, y, z.
    pub fn inverse(&self) -> Self {
        let q = self.value;
        Unit {
            value: Quaternion::new(q.w, -q.i, -q.j, -q.k),
        }
    }
    /// [scope] the diagonal. [textbook] its signs read from the left; off it (2·i·j) ± (2·w·k) with the doubling last.
    pub fn to_rotation_matrix(&self) -> Rotation3 {
        let Quaternion { w, i, j, k } = self.value;
        let (ww, ii, jj, kk) = (w * w, i * i, j * j, k * k);
        let (ij, wk, wj) = (i * j * 2.0, w * k * 2.0, w * j * 2.0);
        let (ik, jk, wi) = (i * k * 2.0, j * k * 2.0, w * i * 2.0);
        Rotation3(Matrix3::new(
            ww + ii - jj - kk,
            ij - wk,
            wj + ik,
            wk + ij,
            ww - ii + jj - kk,
            jk - wi,
            ik - wj,
            wi + jk,
            ww - ii - jj + kk,
        ))
    }
    /// [unreached]
    pub fn to_homogeneous(&self) -> Matrix4<f64> {
        let mut m = Matrix4::identity();
        m.fixed_view_mut::<3, 3>(0, 0)
            .copy_from(&self.to_rotation_matrix().into_inner());
        m
    }
    /// Over the machine's sine and cosine.
    pub fn from_scaled_axis(v: Vector3<f64>) -> Self {
        Self::from_scaled_axis_by(f64::sin, f64::cos, v)
    }
    /// Over any sine and cosine; nalgebra itself has no such function.
    /// [textbook] half the angle is the norm of the halves; its sine is divided by it before the product, and nothing is normalised.
    pub fn from_scaled_axis_by(
        sine: impl Fn(f64) -> f64,
        cosine: impl Fn(f64) -> f64,
        v: Vector3<f64>,
    ) -> Self {
        let h = v / 2.0;
        let n = h.norm();
        if n <= f64::EPSILON {
            return Unit {
                value: Quaternion::new(1.0, 0.0, 0.0, 0.0),
            };
        }
        let u = h * (sine(n) / n);
        Unit {
            value: Quaternion::new(cosine(n), u.x, u.y, u.z),
        }
    }
    /// [unreached]
    pub fn from_axis_angle(axis: &Unit<Vector3<f64>>, angle: f64) -> Self {
        let (sin, cos) = (angle / 2.0).sin_cos();
        Unit {
            value: Quaternion::new(
                cos,
                axis.value.x * sin,
                axis.value.y * sin,
                axis.value.z * sin,
            ),
        }
    }
    /// [unreached]
    pub fn from_euler_angles(roll: f64, pitch: f64, yaw: f64) -> Self {
        let about = |x, y, z, a| {
            Self::from_axis_angle(
                &Unit {
                    value: Vector3::new(x, y, z),
                },
                a,
            )
        };
        about(0.0, 0.0, 1.0, yaw) * about(0.0, 1.0, 0.0, pitch) * about(1.0, 0.0, 0.0, roll)
    }
    /// [unreached]
    pub fn slerp(&self, other: &Self, t: f64) -> Self {
        let (a, mut b) = (self.value, other.value);
        let mut dot = a.w * b.w + a.i * b.i + a.j * b.j + a.k * b.k;
        if dot < 0.0 {
            b = Quaternion::new(-b.w, -b.i, -b.j, -b.k);
            dot = -dot;
        }
        let angle = dot.min(1.0).acos();
        let (p, q) = if angle == 0.0 {
            (1.0, 0.0)
        } else {
            (
                ((1.0 - t) * angle).sin() / angle.sin(),
                (t * angle).sin() / angle.sin(),
            )
        };
        Unit {
            value: Quaternion::new(
                a.w * p + b.w * q,
                a.i * p + b.i * q,
                a.j * p + b.j * q,
                a.k * p + b.k * q,
            ),
        }
    }
}
/// [scope] a product isn't normalised again.
impl Mul for Unit<Quaternion<f64>> {
    type Output = Self;
    fn mul(self, b: Self) -> Self {
        Unit {
            value: self.value * b.value,
        }
    }
}
/// [scope] c = 2(u × p), then (c·w + u × c) + p.
impl Mul<&Vector3<f64>> for Unit<Quaternion<f64>> {
    type Output = Vector3<f64>;
    fn mul(self, p: &Vector3<f64>) -> Vector3<f64> {
        let u = self.value.vector();
        let c = u.cross(p) * 2.0;
        let uc = u.cross(&c);
        c * self.value.w + uc + *p
    }
}

pub struct Rotation3(Matrix3<f64>);
impl Rotation3 {
    pub fn into_inner(self) -> Matrix3<f64> {
        self.0
    }
}
