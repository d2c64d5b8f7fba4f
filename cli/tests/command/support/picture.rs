//! What a picture of a stick shows.

use super::Element;

/// A square, as its tooltip tells it.
#[derive(PartialEq, Debug)]
pub struct Square {
    pub slice: usize,
    /// The volume that holds the slice, and the logical slice of that volume.
    pub held: Option<(usize, usize)>,
    pub colour: String,
    pub corner: (String, String),
}

/// The squares of a picture: the rectangles that have a tooltip.
pub fn squares(picture: &Element) -> Vec<Square> {
    let all = picture.all();
    let squares = all.iter().filter(|element| element.name == "rect");
    let squares = squares.filter_map(|rect| Some((rect, rect.child("title")?)));
    squares
        .map(|(rect, title)| square(rect, &title.text))
        .collect()
}

fn square(rect: &Element, title: &str) -> Square {
    let attribute = |name| rect.attribute(name).expect(name).to_owned();
    assert_eq!(attribute("width"), attribute("height"));
    let logical = number_after(title, "logical slice ");
    let rest = title.replace("logical slice ", "");
    Square {
        slice: number_after(&rest, "slice ").expect("a slice in the tooltip"),
        held: number_after(&rest, "volume ").map(|volume| (volume, logical.unwrap())),
        colour: attribute("fill"),
        corner: (attribute("x"), attribute("y")),
    }
}

/// The number that stands after some words.
fn number_after(text: &str, words: &str) -> Option<usize> {
    let (_, after) = text.split_once(words)?;
    let end = after
        .find(|c: char| !c.is_ascii_digit())
        .unwrap_or(after.len());
    after[..end].parse().ok()
}
