//! A swatch: its size and its pixels, row by row.

use reference::cards::Pixel;
use reference::swatches;

#[derive(Clone, Debug, PartialEq, Eq)]
pub struct Swatch {
    pub width: usize,
    pub height: usize,
    pub pixels: Vec<Pixel>,
}

impl Swatch {
    pub fn new(width: usize, height: usize, mut at: impl FnMut(usize, usize) -> Pixel) -> Swatch {
        let places = (0..height).flat_map(|row| (0..width).map(move |column| (column, row)));
        Swatch {
            width,
            height,
            pixels: places.map(|(column, row)| at(column, row)).collect(),
        }
    }

    /// One row of these pixels.
    pub fn row(pixels: Vec<Pixel>) -> Swatch {
        Swatch {
            width: pixels.len(),
            height: 1,
            pixels,
        }
    }

    pub fn bytes(&self) -> Vec<u8> {
        self.pixels.concat()
    }

    pub fn text(&self) -> Vec<u8> {
        swatches::written(self.width, self.height, &self.pixels)
    }
}
