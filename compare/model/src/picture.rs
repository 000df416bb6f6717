//! T-07 of document 02: the atlas as SVG, in the request's own lines.

use crate::tables::{Atlas, Bucket, Shelf, N};

const GROUND: &str = "#282828";
const USED: &str = "#4646b4";
const FREE: &str = "#323232";

/// "as `<rect x="0" y="0" width="W" height="H" fill="#282828"/>`"; every rectangle is such a line.
fn rect([x, y, width, height]: [N; 4], fill: &str) -> String {
    format!("<rect x=\"{x}\" y=\"{y}\" width=\"{width}\" height=\"{height}\" fill=\"{fill}\"/>\n")
}

/// The used part "even if 0 wide", and behind it the free part "where it is not 0 wide".
fn parts(shelf: &Shelf, bucket: &Bucket) -> String {
    let width = shelf.width - bucket.free;
    let used = rect([bucket.x, shelf.y, width, shelf.height], USED);
    let free = rect([bucket.x + width, shelf.y, bucket.free, shelf.height], FREE);
    if bucket.free != 0 { used + &free } else { used }
}

impl Atlas {
    /// "shelf by shelf and along each chain"
    fn buckets_drawn(&self) -> String {
        let along = |shelf: &Shelf| self.chain(shelf.first).map(|b| parts(shelf, &self.buckets[b])).collect::<String>();
        self.shelves.iter().map(along).collect()
    }

    /// The whole text.
    pub fn picture(&self) -> String {
        let (w, h) = (self.width, self.height);
        let first = format!("<svg xmlns=\"http://www.w3.org/2000/svg\" viewBox=\"0 0 {w} {h}\">\n");
        first + &rect([0, 0, w, h], GROUND) + &self.buckets_drawn() + "</svg>\n"
    }

    /// The text into a lent buffer: how many bytes of it. "1, then 24 output buffer too short, with the buffer unchanged"
    pub fn draw(&self, out: &mut [u8]) -> Result<usize, u8> {
        if self.sound().is_err() {
            return Err(1);
        }
        let text = self.picture();
        out.get_mut(..text.len()).ok_or(24)?.copy_from_slice(text.as_bytes());
        Ok(text.len())
    }
}
