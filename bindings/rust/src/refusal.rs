//! The refusals of these calls, by name and number. A refused call has changed nothing: no number of header and tables, no entry of the
//! list, no byte of a buffer. `Atlas::read` alone is two calls of the C functions.

use core::fmt;

/// Why a call was refused. A refused call has written nothing; [`Atlas::read`](crate::Atlas::read) says of itself what a refused list leaves.
///
/// The names are those of `enum treadwharf_refusal` in the C header, the numbers those of document 01's table and, from 16 on, of document
/// 02. Numbers 13 to 15 are of the trace replay, which these calls are no part of.
///
/// An archive of another version may refuse with a number that has no name here. That is [`Refusal::Other`] with the number: a refusal
/// like the others, and never a panic.
///
/// ```
/// use treadwharf::{size2, Atlas, Refusal, Tables};
///
/// let mut tables = Tables::new();
/// let mut atlas = Atlas::new(&mut tables, size2(64, 64))?;
/// match atlas.allocate(size2(65, 5)) {
///     Ok(placed) => println!("at {:?}", placed.rectangle),
///     Err(Refusal::NoPlace) => println!("full: return something, grow, or take a second texture"),
///     Err(refusal) => println!("{refusal}"),
/// }
/// # Ok::<(), Refusal>(())
/// ```
#[derive(Clone, Copy, Debug, PartialEq, Eq, Hash)]
#[non_exhaustive]
pub enum Refusal {
    /// 1: the tables are not sound, or what a file would bring into them is not. (Too little room is the other cause of 1, and
    /// [`Tables`](crate::Tables) has it always.)
    Tables,
    /// 2, new and grow: a side outside 1 to 46,340.
    Side,
    /// 3, new: alignment or columns outside 1 to 46,340, a column width of 0, or vertical.
    Options,
    /// 4, allocate: a side below 1.
    Small,
    /// 5, allocate: a side above 65,535, which no atlas has.
    Large,
    /// 6, allocate: no place.
    NoPlace,
    /// 7, allocate: the filler shelf would bring the bucket count to 4,095.
    Filler,
    /// 8, allocate: the merge rule picks a bucket that has counted 65,535 items. Archives before 0.7.0 alone: since then no such bucket can be picked.
    Items,
    /// 9, deallocate: the id names no bucket.
    Unknown,
    /// 10, deallocate: the id is of another generation of its bucket, as one that was handed back before, the bucket's last rectangle among those.
    Stale,
    /// 11, deallocate: nothing of the id's bucket is held, and the id is of its generation; so it was not given, or after the writing of a file that was
    /// read since.
    Unheld,
    /// 12, grow: a side below the present one.
    Shrink,
    /// 16, read: the file is malformed or cut.
    Broken,
    /// 17, read: the file is whole, and of a version that this archive does not read.
    UnknownVersion,
    /// 18, write: the buffer is shorter than the file.
    Buffer,
    /// 19, allocate: the request would be placed, but the list has no room for its entry.
    Full,
    /// 20, deallocate: the id is not held, as one that was handed back before.
    NotHeld,
    /// 21, all but new and read: the list does not fit the tables; after a read, until one is lent anew.
    List,
    /// 22, allocate: the aligned width is above the column width; no return of rectangles helps.
    Wide,
    /// 23, allocate: the aligned height is above the atlas height; no return of rectangles helps.
    Tall,
    /// 24, picture: the buffer is shorter than the text.
    Output,
    /// A number without a name in this version of the wrapper.
    Other(u32),
}

impl Refusal {
    /// The documents' number, as the C function returned it.
    ///
    /// ```
    /// assert_eq!(treadwharf::Refusal::NoPlace.number(), 6);
    /// ```
    pub const fn number(self) -> u32 {
        match self {
            Refusal::Tables => 1,
            Refusal::Side => 2,
            Refusal::Options => 3,
            Refusal::Small => 4,
            Refusal::Large => 5,
            Refusal::NoPlace => 6,
            Refusal::Filler => 7,
            Refusal::Items => 8,
            Refusal::Unknown => 9,
            Refusal::Stale => 10,
            Refusal::Unheld => 11,
            Refusal::Shrink => 12,
            Refusal::Broken => 16,
            Refusal::UnknownVersion => 17,
            Refusal::Buffer => 18,
            Refusal::Full => 19,
            Refusal::NotHeld => 20,
            Refusal::List => 21,
            Refusal::Wide => 22,
            Refusal::Tall => 23,
            Refusal::Output => 24,
            Refusal::Other(number) => number,
        }
    }

    /// The sentence of document 01's table, or document 02's words, for a log that has no formatter.
    ///
    /// ```
    /// assert_eq!(treadwharf::Refusal::Shrink.sentence(), "grow: a side below the present one");
    /// ```
    pub const fn sentence(self) -> &'static str {
        match self {
            Refusal::Tables => "lent room too short, or tables not sound",
            Refusal::Side => "new, grow: a side outside 1 to 46,340",
            Refusal::Options => "new: alignment or columns outside the domain, column width 0, or vertical",
            Refusal::Small => "request with a side below 1",
            Refusal::Large => "a request side above 65,535",
            Refusal::NoPlace => "no place",
            Refusal::Filler => "the filler shelf would bring the bucket count to 4,095",
            Refusal::Items => "the merge rule picks a bucket whose item count is 65,535",
            Refusal::Unknown => "id names a bucket not below the bucket count",
            Refusal::Stale => "the id's generation differs from the bucket's",
            Refusal::Unheld => "the bucket's reference count is 0",
            Refusal::Shrink => "grow: a side below the present one",
            Refusal::Broken => "reading: malformed or cut",
            Refusal::UnknownVersion => "reading: unknown version",
            Refusal::Buffer => "buffer too short for writing",
            Refusal::Full => "list full",
            Refusal::NotHeld => "id not held",
            Refusal::List => "list not fitting the tables",
            Refusal::Wide => "aligned width above the column width",
            Refusal::Tall => "aligned height above the atlas height",
            Refusal::Output => "output buffer too short",
            Refusal::Other(_) => "a refusal that this version of the wrapper has no name for",
        }
    }
}

/// The sentence, and the number behind it.
///
/// ```
/// assert_eq!(treadwharf::Refusal::NoPlace.to_string(), "no place (refusal 6)");
/// ```
impl fmt::Display for Refusal {
    fn fmt(&self, f: &mut fmt::Formatter<'_>) -> fmt::Result {
        write!(f, "{} (refusal {})", self.sentence(), self.number())
    }
}

impl core::error::Error for Refusal {}

/// 0, which is acceptance and no refusal: the error of `Refusal::try_from(0)`.
///
/// ```
/// use treadwharf::{NoRefusal, Refusal};
///
/// assert_eq!(Refusal::try_from(0), Err(NoRefusal));
/// assert_eq!(NoRefusal.to_string(), "0 is acceptance, no refusal");
/// ```
#[derive(Clone, Copy, Debug, PartialEq, Eq, Hash)]
pub struct NoRefusal;

impl fmt::Display for NoRefusal {
    fn fmt(&self, f: &mut fmt::Formatter<'_>) -> fmt::Result {
        f.write_str("0 is acceptance, no refusal")
    }
}

impl core::error::Error for NoRefusal {}

/// The refusal of a number that a C function returned, or that a trace has.
///
/// ```
/// use treadwharf::Refusal;
///
/// assert_eq!(Refusal::try_from(10), Ok(Refusal::Stale));
/// assert_eq!(Refusal::try_from(99), Ok(Refusal::Other(99)));
/// assert!(Refusal::try_from(0).is_err());
/// ```
impl TryFrom<u32> for Refusal {
    type Error = NoRefusal;

    fn try_from(number: u32) -> Result<Refusal, NoRefusal> {
        Ok(match number {
            0 => return Err(NoRefusal),
            1 => Refusal::Tables,
            2 => Refusal::Side,
            3 => Refusal::Options,
            4 => Refusal::Small,
            5 => Refusal::Large,
            6 => Refusal::NoPlace,
            7 => Refusal::Filler,
            8 => Refusal::Items,
            9 => Refusal::Unknown,
            10 => Refusal::Stale,
            11 => Refusal::Unheld,
            12 => Refusal::Shrink,
            16 => Refusal::Broken,
            17 => Refusal::UnknownVersion,
            18 => Refusal::Buffer,
            19 => Refusal::Full,
            20 => Refusal::NotHeld,
            21 => Refusal::List,
            22 => Refusal::Wide,
            23 => Refusal::Tall,
            24 => Refusal::Output,
            other => Refusal::Other(other),
        })
    }
}

/// What a C function returned, with what it told where that is 0.
pub(crate) fn accepted<T>(number: u32, value: T) -> Result<T, Refusal> {
    match Refusal::try_from(number) {
        Ok(refusal) => Err(refusal),
        Err(NoRefusal) => Ok(value),
    }
}

#[cfg(test)]
mod tests {
    use super::*;

    /// A number without a name, as an archive of another version may return it, is a refusal like the others.
    #[test]
    fn what_an_archive_returns() {
        assert_eq!(accepted(0, 7), Ok(7));
        assert_eq!(accepted(6, 7), Err(Refusal::NoPlace));
        assert_eq!(accepted(99, 7), Err(Refusal::Other(99)));
        assert_eq!(accepted(u32::MAX, 7), Err(Refusal::Other(u32::MAX)));
    }
}
