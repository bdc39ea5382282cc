//! The service map, by document 02, (iii): "I want the store printed for the flight case."

use crate::image::Image;
use crate::judge::judge;
use crate::layout::CARD_GRANULES;

/// "Each card is one line of 72 characters and a line end".
pub const LINE_BYTES: usize = 73;

/// The number of bytes of the map of a store with `k` cards.
pub fn map_bytes(k: usize) -> usize {
    LINE_BYTES * k
}

/// Writes the map of an undamaged image and gives 0. "A lent output of another length than 73 bytes a line, or a bad image, leaves it
/// unwritten. Checks: 1 and 2, as for a batch."
pub fn service_map(words: &[u16], output: &mut [u8]) -> u16 {
    let Some(image) = Image::of(words) else { return 1 };
    if output.len() != map_bytes(image.cards()) {
        return 1;
    }
    if judge(words) != 0 {
        return 2;
    }
    output.copy_from_slice(map(image).as_bytes());
    0
}

/// The lines of all cards, of an image whose heap is sound.
pub fn map(image: Image) -> String {
    let signs = signs(image);
    let on_card = |c| signs[CARD_GRANULES * c..CARD_GRANULES * (c + 1)].iter().collect::<String>();
    (0..image.cards()).map(|c| line(c, image.card(c), &on_card(c))).collect()
}

/// "the card number from 0 in four digits, a space, its state digit, a space, then 64 signs, and one space at the end"
fn line(card: usize, state: usize, signs: &str) -> String {
    format!("{card:04} {state} {signs} \n")
}

/// The signs of all granules: "`.` for free or granule 0, `o` for an unmarked start, `#` for a marked start, `-` for the rest of an
/// object". What no object has is free, or granule 0.
fn signs(image: Image) -> Vec<char> {
    let mut signs = vec!['.'; image.granules()];
    for object in image.objects() {
        signs[object.start] = if image.is_marked(object.start) { '#' } else { 'o' };
        signs[object.start + 1..object.start + object.size].fill('-');
    }
    signs
}
