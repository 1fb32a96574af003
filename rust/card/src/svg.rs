//! The map as a picture for a browser.

use crate::owners::{Owner, Owners};

const CELL: usize = 12;
const WIDTH: usize = 64;
const LEFT: usize = 60;
const TOP: usize = 40;

/// Colours that are told apart by most eyes, light and dark in turns.
const FILES: [&str; 8] = [
    "#0072b2", "#e69f00", "#009e73", "#cc79a7", "#56b4e9", "#d55e00", "#f0e442", "#5d3a9b",
];

fn colour(owner: Owner) -> &'static str {
    match owner {
        Owner::Free => "#eeeeee",
        Owner::RefusesErase => "#000000",
        Owner::RefusesProgram => "#666666",
        Owner::File(file) => FILES[file % FILES.len()],
    }
}

/// A text as XML has it.
fn escaped(text: &str) -> String {
    text.replace('&', "&amp;")
        .replace('<', "&lt;")
        .replace('>', "&gt;")
}

fn cells(owners: &Owners) -> String {
    let mut text = String::new();
    for (first, last, owner) in owners.runs(WIDTH) {
        let (x, y) = (LEFT + first % WIDTH * CELL, TOP + first / WIDTH * CELL);
        let (width, height) = ((last - first + 1) * CELL - 1, CELL - 1);
        let blocks = match last - first {
            0 => format!("block {first}"),
            _ => format!("blocks {first} to {last}"),
        };
        let (fill, name) = (colour(owner), owners.name(owner));
        text += &format!(
            "<rect x=\"{x}\" y=\"{y}\" width=\"{width}\" height=\"{height}\" fill=\"{fill}\"><title>{blocks}: {name}</title></rect>\n"
        );
    }
    for row in 0..owners.blocks.len().div_ceil(WIDTH) {
        let (x, y) = (LEFT - 8, TOP + row * CELL + CELL - 2);
        text += &format!(
            "<text x=\"{x}\" y=\"{y}\" text-anchor=\"end\">{}</text>\n",
            row * WIDTH
        );
    }
    text
}

/// The picture: a row for each 64 blocks, then a line for each owner.
pub fn drawn(owners: &Owners, title: &str) -> String {
    let rows = owners.blocks.len().div_ceil(WIDTH);
    let files = (0..owners.numbers.len()).map(Owner::File);
    let others = [Owner::Free, Owner::RefusesErase, Owner::RefusesProgram];
    let mut legend = String::new();
    let mut y = TOP + rows * CELL + 24;
    for owner in files.chain(others) {
        let (fill, name, count) = (colour(owner), owners.name(owner), owners.count(owner));
        legend +=
            &format!("<rect x=\"{LEFT}\" y=\"{y}\" width=\"11\" height=\"11\" fill=\"{fill}\"/>\n");
        legend += &format!(
            "<text x=\"{}\" y=\"{}\">{name}: {count} blocks</text>\n",
            LEFT + 18,
            y + 10
        );
        y += 18;
    }
    let (width, height) = (LEFT + WIDTH * CELL + 20, y + 10);
    format!(
        "<svg xmlns=\"http://www.w3.org/2000/svg\" width=\"{width}\" height=\"{height}\" font-family=\"sans-serif\" font-size=\"10\">\n\
         <rect width=\"100%\" height=\"100%\" fill=\"#ffffff\"/>\n\
         <text x=\"{LEFT}\" y=\"24\" font-size=\"14\">{}</text>\n{}{legend}</svg>\n",
        escaped(title),
        cells(owners)
    )
}
