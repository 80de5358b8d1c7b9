// ---- complex numbers (01, "The solver": product and polar number; 02, request 3: quotient), under the names of num_complex

use std::ops::{Add, AddAssign, Div, Mul, Neg, Sub};

#[derive(Clone, Copy)]
pub struct Complex<T> {
    pub re: T,
    pub im: T,
}

impl Complex<f64> {
    pub fn new(re: f64, im: f64) -> Self {
        Complex { re, im }
    }
    pub fn i() -> Self {
        Complex { re: 0.0, im: 1.0 }
    }
    pub fn conj(&self) -> Self {
        Complex { re: self.re, im: -self.im }
    }
    pub fn from_polar(r: f64, theta: f64) -> Self {
        let (s, c) = sin_cos(theta);
        Complex { re: r * c, im: r * s }
    }
}

impl Mul for Complex<f64> {
    type Output = Self;
    fn mul(self, o: Self) -> Self {
        Complex { re: self.re * o.re - self.im * o.im, im: self.re * o.im + self.im * o.re }
    }
}

impl Div for Complex<f64> {
    type Output = Self;
    fn div(self, o: Self) -> Self {
        let below = o.re * o.re + o.im * o.im;
        Complex { re: (self.re * o.re + self.im * o.im) / below, im: (self.im * o.re - self.re * o.im) / below }
    }
}

impl Mul<f64> for Complex<f64> {
    type Output = Self;
    fn mul(self, x: f64) -> Self {
        Complex { re: self.re * x, im: self.im * x }
    }
}

impl Div<f64> for Complex<f64> {
    type Output = Self;
    fn div(self, x: f64) -> Self {
        Complex { re: self.re / x, im: self.im / x }
    }
}

impl Add for Complex<f64> {
    type Output = Self;
    fn add(self, o: Self) -> Self {
        Complex { re: self.re + o.re, im: self.im + o.im }
    }
}

impl Sub for Complex<f64> {
    type Output = Self;
    fn sub(self, o: Self) -> Self {
        Complex { re: self.re - o.re, im: self.im - o.im }
    }
}

impl Neg for Complex<f64> {
    type Output = Self;
    fn neg(self) -> Self {
        Complex { re: -self.re, im: -self.im }
    }
}

impl AddAssign for Complex<f64> {
    fn add_assign(&mut self, o: Self) {
        *self = *self + o;
    }
}

