//! A stand-in of our own for the SVG types that the compared Rust names. Each prints as document 02's T-07 has it, so that what the crate draws can
//! be compared: its rectangles, their order and their colours. The stroke, which T-07 has not, is dropped.

use std::fmt::{Display, Formatter, Result};

#[derive(Copy, Clone)]
pub struct Color(pub u8, pub u8, pub u8);

pub fn rgb(r: u8, g: u8, b: u8) -> Color {
    Color(r, g, b)
}

pub fn black() -> Color {
    Color(0, 0, 0)
}

pub enum Stroke {
    Color(Color, f32),
}

pub struct BeginSvg {
    pub w: f32,
    pub h: f32,
}

pub struct EndSvg;

pub struct Rectangle([f32; 4], Color);

pub fn rectangle(x: f32, y: f32, w: f32, h: f32) -> Rectangle {
    Rectangle([x, y, w, h], black())
}

impl Rectangle {
    pub fn fill(self, color: Color) -> Self {
        Rectangle(self.0, color)
    }

    pub fn stroke(self, _: Stroke) -> Self {
        self
    }
}

impl Display for BeginSvg {
    fn fmt(&self, f: &mut Formatter) -> Result {
        write!(f, "<svg xmlns=\"http://www.w3.org/2000/svg\" viewBox=\"0 0 {} {}\">", self.w, self.h)
    }
}

impl Display for EndSvg {
    fn fmt(&self, f: &mut Formatter) -> Result {
        write!(f, "</svg>")
    }
}

impl Display for Rectangle {
    fn fmt(&self, f: &mut Formatter) -> Result {
        let Rectangle([x, y, w, h], Color(r, g, b)) = self;
        write!(f, "<rect x=\"{x}\" y=\"{y}\" width=\"{w}\" height=\"{h}\" fill=\"#{r:02x}{g:02x}{b:02x}\"/>")
    }
}
