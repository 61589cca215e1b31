//! Bars of equal cells in SVG. The parts of one class are one path, since a bar may have hundreds of cells.

use crate::svg::{rounded, Area, Element};

/// A bar of cells of some classes, with space after each cell. Without space, neighbours of one class are one rectangle.
pub fn class_bar(cells: &[&'static str], area: Area, space: f64) -> Vec<Element> {
    let mut classes = cells.to_vec();
    classes.sort();
    classes.dedup();
    let path = |class: &'static str| {
        let part = |cell: &&str| [0.0, if *cell == class { 1.0 } else { 0.0 }];
        path(class, cells, area, space, part)
    };
    classes.into_iter().map(path).collect()
}

/// A bar whose cells are parted from the top downwards, by how often each class was counted in a cell.
pub fn parted_bar<const N: usize>(
    classes: [&'static str; N],
    cells: impl Iterator<Item = [u32; N]>,
    area: Area,
) -> Vec<Element> {
    let edges: Vec<[[f64; 2]; N]> = cells.map(|counts| parts(counts, area)).collect();
    let has_parts = |class: &usize| {
        edges
            .iter()
            .any(|parts| parts[*class][0] < parts[*class][1])
    };
    let path = |class: usize| path(classes[class], &edges, area, 0.0, |parts| parts[class]);
    (0..N).filter(has_parts).map(path).collect()
}

/// From where to where each of some counts reaches, in halves of a pixel, so that many cells are alike.
fn parts<const N: usize>(counts: [u32; N], area: Area) -> [[f64; 2]; N] {
    let all: u32 = counts.iter().sum();
    let halves = 2.0 * area.height;
    let edge = |until: usize| {
        let sum: u32 = counts[..until].iter().sum();
        (halves * f64::from(sum) / f64::from(all)).round() / halves
    };
    std::array::from_fn(|class| [edge(class), edge(class + 1)])
}

/// A bar of cells as high as their numbers, of which the greatest has the height of the area.
pub fn number_bar(class: &str, cells: &[usize], greatest: usize, area: Area) -> Element {
    let part = |number: &usize| [1.0 - *number as f64 / greatest as f64, 1.0];
    path(class, cells, area, 0.0, part)
}

/// The path around a part of each cell, which is given by where it begins and ends in the height of the area.
fn path<T: PartialEq>(
    class: &str,
    cells: &[T],
    area: Area,
    space: f64,
    part: impl Fn(&T) -> [f64; 2],
) -> Element {
    let pitch = area.width / cells.len() as f64;
    let (mut outlines, mut x) = (String::new(), area.x);
    for run in cells.chunk_by(|cell, next| space == 0.0 && cell == next) {
        let ([from, to], width) = (part(&run[0]), run.len() as f64 * pitch);
        if from < to {
            outlines += &outline(Area {
                x,
                y: area.y + from * area.height,
                width: width - space,
                height: (to - from) * area.height,
            });
        }
        x += width;
    }
    Element::new("path").set("class", class).set("d", outlines)
}

/// The path around an area.
fn outline(area: Area) -> String {
    let [x, y, width, height] = [area.x, area.y, area.width, area.height].map(rounded);
    format!("M{x} {y}h{width}v{height}h-{width}z")
}

#[cfg(test)]
mod tests {
    use super::*;

    const AREA: Area = Area {
        x: 10.0,
        y: 2.0,
        width: 40.0,
        height: 8.0,
    };

    fn written(elements: Vec<Element>) -> Vec<String> {
        elements.iter().map(Element::to_string).collect()
    }

    #[test]
    fn cells_of_classes() {
        let cells = ["b", "a", "a", "b"];
        let alone = [
            "<path class=\"a\" d=\"M20 2h9v8h-9zM30 2h9v8h-9z\"/>",
            "<path class=\"b\" d=\"M10 2h9v8h-9zM40 2h9v8h-9z\"/>",
        ];
        assert_eq!(written(class_bar(&cells, AREA, 1.0)), alone);
        let together = [
            "<path class=\"a\" d=\"M20 2h20v8h-20z\"/>",
            "<path class=\"b\" d=\"M10 2h10v8h-10zM40 2h10v8h-10z\"/>",
        ];
        assert_eq!(written(class_bar(&cells, AREA, 0.0)), together);
        assert!(class_bar(&[], AREA, 0.0).is_empty());
    }

    /// A quarter of a cell, a whole one, and two that are alike; a class that no cell has, has no path.
    #[test]
    fn parted_cells() {
        let cells = [[1, 3, 0], [2, 0, 0], [0, 5, 0], [0, 7, 0]];
        let expected = [
            "<path class=\"a\" d=\"M10 2h10v2h-10zM20 2h10v8h-10z\"/>",
            "<path class=\"b\" d=\"M10 4h10v6h-10zM30 2h20v8h-20z\"/>",
        ];
        let bar = parted_bar(["a", "b", "c"], cells.into_iter(), AREA);
        assert_eq!(written(bar), expected);
    }

    /// A cell of 0 has no height, and the greatest number has all of it.
    #[test]
    fn cells_of_numbers() {
        let bar = number_bar("c", &[0, 1, 1, 4], 4, AREA);
        let expected = "<path class=\"c\" d=\"M20 8h20v2h-20zM40 2h10v8h-10z\"/>";
        assert_eq!(bar.to_string(), expected);
    }
}
