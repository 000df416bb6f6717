//! Sides and rectangles, in pixels. Signed numbers of 32 bits, as etagere has them, so that a request may be anything and is answered;
//! what an atlas hands out is within 0 to 46,340.

/// A width and a height, in pixels: of an atlas, of a request, of a rectangle.
///
/// ```
/// use treadwharf::{size2, Size};
///
/// assert_eq!(size2(10, 7), Size { width: 10, height: 7 });
/// assert_eq!(Size::from((10, 7)), size2(10, 7));
/// ```
#[derive(Clone, Copy, Debug, PartialEq, Eq, Hash)]
pub struct Size {
    /// From left to right.
    pub width: i32,
    /// From top to bottom.
    pub height: i32,
}

/// A size, as etagere's function of this name makes one.
///
/// ```
/// const LABEL: treadwharf::Size = treadwharf::size2(120, 14);
///
/// assert_eq!((LABEL.width, LABEL.height), (120, 14));
/// ```
pub const fn size2(width: i32, height: i32) -> Size {
    Size { width, height }
}

impl Size {
    /// Width times height; 0 where a side is below 1, and `u32::MAX` where the product is larger.
    ///
    /// ```
    /// use treadwharf::size2;
    ///
    /// assert_eq!(size2(10, 8).area(), 80);
    /// assert_eq!(size2(-10, 8).area(), 0);
    /// assert_eq!(size2(46_340, 46_340).area(), 2_147_395_600);
    /// ```
    pub const fn area(self) -> u32 {
        if self.width < 1 || self.height < 1 {
            return 0;
        }
        (self.width as u32).saturating_mul(self.height as u32)
    }
}

impl From<(i32, i32)> for Size {
    fn from((width, height): (i32, i32)) -> Size {
        size2(width, height)
    }
}

/// The pixels from (left, top) up to, and without, (right, bottom).
///
/// ```
/// use treadwharf::Rectangle;
///
/// let r = Rectangle { left: 32, top: 0, right: 42, bottom: 8 };
/// assert_eq!((r.width(), r.height(), r.area()), (10, 8, 80));
/// ```
#[derive(Clone, Copy, Debug, PartialEq, Eq, Hash)]
pub struct Rectangle {
    /// The first column of pixels.
    pub left: i32,
    /// The first row of pixels.
    pub top: i32,
    /// The column after the last.
    pub right: i32,
    /// The row after the last.
    pub bottom: i32,
}

impl Rectangle {
    /// Right less left.
    ///
    /// ```
    /// # use treadwharf::Rectangle;
    /// assert_eq!(Rectangle { left: 32, top: 0, right: 42, bottom: 8 }.width(), 10);
    /// ```
    pub const fn width(&self) -> i32 {
        self.right.saturating_sub(self.left)
    }

    /// Bottom less top.
    ///
    /// ```
    /// # use treadwharf::Rectangle;
    /// assert_eq!(Rectangle { left: 32, top: 0, right: 42, bottom: 8 }.height(), 8);
    /// ```
    pub const fn height(&self) -> i32 {
        self.bottom.saturating_sub(self.top)
    }

    /// Width and height.
    ///
    /// ```
    /// # use treadwharf::{size2, Rectangle};
    /// assert_eq!(Rectangle { left: 32, top: 0, right: 42, bottom: 8 }.size(), size2(10, 8));
    /// ```
    pub const fn size(&self) -> Size {
        size2(self.width(), self.height())
    }

    /// How many pixels it has, by [`Size::area`].
    ///
    /// ```
    /// # use treadwharf::Rectangle;
    /// assert_eq!(Rectangle { left: 32, top: 0, right: 42, bottom: 8 }.area(), 80);
    /// ```
    pub const fn area(&self) -> u32 {
        self.size().area()
    }
}
