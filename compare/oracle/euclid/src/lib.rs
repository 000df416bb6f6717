//! A stand-in of our own for the few geometry types that the compared Rust uses.
//! Only what it calls is here, and each does what the real one does for whole numbers.

use std::ops::{Mul, Sub};

/// The names without a unit, which are the only ones used.
pub mod default {
    pub use crate::{Box2D, Point2D, Size2D};
}

#[derive(Copy, Clone, Debug, PartialEq, Eq, Hash)]
pub struct Point2D<T> {
    pub x: T,
    pub y: T,
}

#[derive(Copy, Clone, Debug, PartialEq, Eq, Hash)]
pub struct Size2D<T> {
    pub width: T,
    pub height: T,
}

#[derive(Copy, Clone, Debug, PartialEq, Eq, Hash)]
pub struct Box2D<T> {
    pub min: Point2D<T>,
    pub max: Point2D<T>,
}

pub const fn point2<T>(x: T, y: T) -> Point2D<T> {
    Point2D { x, y }
}

pub const fn size2<T>(width: T, height: T) -> Size2D<T> {
    Size2D { width, height }
}

impl<T: Copy + Default + PartialOrd + Mul<Output = T>> Size2D<T> {
    /// A side of 0 or below.
    pub fn is_empty(&self) -> bool {
        let zero = T::default();
        !(self.width > zero && self.height > zero)
    }

    pub fn area(&self) -> T {
        self.width * self.height
    }
}

impl<T: Copy + Default + PartialOrd + Mul<Output = T> + Sub<Output = T>> Box2D<T> {
    pub fn size(&self) -> Size2D<T> {
        size2(self.max.x - self.min.x, self.max.y - self.min.y)
    }

    pub fn area(&self) -> T {
        self.size().area()
    }
}
