//! `--svg`: what the drawings of updates and cuts hold, beside the text that is printed with them.

use std::fs;

use crate::arguments::wrong;
use crate::outside::Sign;
use crate::run::{bytes, run};
use crate::scripts::named;
use crate::xml::{read, Element};

/// A run that writes a drawing: what it prints, and the drawing. FILE stands for the name of the file.
pub fn drawn(name: &str, line: &str) -> (String, Element) {
    let path = named(&format!("{name}.svg"), b"before");
    let line = line.replace("FILE", &path);
    let printed = run(&line.split(' ').collect::<Vec<_>>()).printed();
    let drawing = fs::read_to_string(&path).expect("a drawing");
    let root = read(&drawing).unwrap_or_else(|| panic!("{line}: {drawing}"));
    check_frame(&root);
    (printed, root)
}

/// What every drawing has: a size, a title and a description, and nothing from elsewhere. All that is drawn is inside it.
fn check_frame(root: &Element) {
    assert_eq!(root.get("xmlns"), Some("http://www.w3.org/2000/svg"));
    let (width, height) = (root.number("width"), root.number("height"));
    assert!(width <= 1000.0);
    let view = format!("0 0 {width} {height}");
    assert_eq!(root.get("viewBox"), Some(view.as_str()));
    let [title, description] = [0, 1].map(|number| &root.children[number]);
    for (element, name, id) in [
        (title, "title", "title"),
        (description, "desc", "description"),
    ] {
        assert_eq!((element.name.as_str(), element.get("id")), (name, Some(id)));
        assert!(element.text.len() > 10, "{element:?}");
    }
    assert_eq!(root.get("aria-labelledby"), Some("title description"));
    let names = [
        "svg", "title", "desc", "style", "g", "rect", "path", "line", "text",
    ];
    for element in root.all() {
        assert!(names.contains(&element.name.as_str()), "{}", element.name);
        match element.name.as_str() {
            "rect" | "path" => {
                for area in areas(element) {
                    assert!(area.x >= 0.0 && area.x + area.width <= width, "{area:?}");
                    assert!(area.y >= 0.0 && area.y + area.height <= height, "{area:?}");
                }
            }
            "text" => check_text(element, width, height),
            _ => {}
        }
    }
    let style = &root.children[2].text;
    assert!(!style.contains("url") && !style.contains("@"), "{style}");
}

/// A rectangle.
#[derive(Clone, Copy, Debug)]
pub struct Area {
    pub x: f64,
    pub y: f64,
    pub width: f64,
    pub height: f64,
}

/// The area of a rectangle, or those that a path goes round: "M x y h width v height h -width z".
pub fn areas(element: &Element) -> Vec<Area> {
    let Some(path) = element.get("d") else {
        let [x, y, width, height] = ["x", "y", "width", "height"].map(|of| element.number(of));
        return vec![Area {
            x,
            y,
            width,
            height,
        }];
    };
    let outlines = path.split_terminator('z').map(|outline| {
        let numbers = outline.strip_prefix('M')?.split(['h', 'v', ' ']);
        let numbers: Option<Vec<f64>> = numbers.map(|number| number.parse().ok()).collect();
        match numbers?[..] {
            [x, y, width, height, back] if back == -width => Some(Area {
                x,
                y,
                width,
                height,
            }),
            _ => None,
        }
    });
    let areas: Option<Vec<Area>> = outlines.collect();
    areas.unwrap_or_else(|| panic!("{path}"))
}

/// A text is inside the drawing, where a letter is at most 8 pixels wide.
fn check_text(element: &Element, width: f64, height: f64) {
    let length = 8.0 * element.text.len() as f64;
    let to_the_right = match element.get("class") {
        Some("small end") => 0.0,
        Some("small middle") => length / 2.0,
        Some("title") => 1.5 * length,
        _ => length,
    };
    assert!(element.number("x") + to_the_right <= width, "{element:?}");
    assert!(element.number("y") < height, "{element:?}");
}

/// The colour that the style gives a class.
fn colour(root: &Element, class: &str) -> [u8; 3] {
    let style = &root.children[2].text;
    let rule = style.split_once(&format!("\n.{class} {{ fill: #"));
    let digits = rule.unwrap_or_else(|| panic!("no {class}")).1;
    [0, 2, 4].map(|at| u8::from_str_radix(&digits[at..at + 2], 16).expect("two digits"))
}

/// How bright a colour is, from 0 to 255: ITU-R BT.601.
fn brightness([red, green, blue]: [u8; 3]) -> f64 {
    0.299 * f64::from(red) + 0.587 * f64::from(green) + 0.114 * f64::from(blue)
}

/// Colours of a legend differ in brightness by more than 25 of 255.
pub fn check_brightness(root: &Element, classes: &[&str]) {
    for (number, class) in classes.iter().enumerate() {
        for other in &classes[..number] {
            let [one, two] = [class, other].map(|of| brightness(colour(root, of)));
            assert!((one - two).abs() > 25.0, "{class} and {other}");
        }
    }
}

/// The characters of a picture and the classes of a drawing.
pub const PAGES: [(char, &str); 4] = [('o', "old"), ('.', "blank"), ('~', "partly"), ('n', "new")];

/// How often each character, and the mark of protected pages, is in a picture.
fn counts_of_picture(picture: &str) -> Vec<usize> {
    let rows: Vec<&str> = picture
        .lines()
        .skip(1)
        .filter_map(|row| row.get(8..))
        .collect();
    let count = |of| rows.iter().map(|row| row.matches(of).count()).sum();
    let characters = PAGES.iter().map(|(character, _)| *character);
    characters.chain(['^']).map(count).collect()
}

/// The pictures in a text.
fn pictures(text: &str) -> Vec<Vec<usize>> {
    let pictures = text.split("        boot  program\n").skip(1);
    let pictures = pictures.filter_map(|rest| rest.split("\n\n").next());
    pictures
        .map(|rows| counts_of_picture(&format!("\n{rows}")))
        .collect()
}

/// The same counts of each moment of a drawing, which has two banks.
fn moments(root: &Element) -> Vec<Vec<usize>> {
    let count = |banks: &[&Element], class: &str| {
        let rectangles = banks.iter().map(|bank| bank.of_class(class).len());
        rectangles.sum()
    };
    let classes = PAGES.iter().map(|(_, class)| *class).chain(["protected"]);
    let counts = |banks: &[&Element]| classes.clone().map(|class| count(banks, class)).collect();
    root.of_class("bank").chunks(2).map(counts).collect()
}

/// Each page by its name, as a browser shows it, with its class.
fn page_titles(root: &Element) -> Vec<String> {
    let banks = root.of_class("bank").into_iter();
    let pages = banks.flat_map(|bank| bank.children.iter());
    let pages = pages.filter(|element| !element.children.is_empty());
    let title = |page: &Element| {
        format!(
            "{} {}",
            page.get("class").unwrap_or(""),
            page.children[0].text
        )
    };
    pages.map(title).collect()
}

/// How many program pages are named from 0 on, once in each bank at both moments.
fn program_pages(root: &Element) -> String {
    let titles = page_titles(root);
    let is_named = |page: &usize| {
        let name = format!(", program page {page}: ");
        titles.iter().filter(|title| title.contains(&name)).count() == 4
    };
    (0..).take_while(is_named).count().to_string()
}

#[test]
fn updates() {
    for numbers in ["1 1 1", "1 2 6", "4 5 64", "1 3 65", "1 5 128"] {
        let line = format!("update {numbers}");
        let (printed, root) = drawn("update", &format!("{line} --svg FILE"));
        assert_eq!(printed, run(&line.split(' ').collect::<Vec<_>>()).printed());
        assert_eq!(moments(&root), pictures(&printed), "{line}");
        assert_eq!(moments(&root).len(), 2);
        assert_eq!(program_pages(&root), numbers.rsplit(' ').next().expect("P"));
        check_brightness(&root, &["old", "blank", "partly", "new"]);
    }
}

/// An image with a page of all ones: all pages of bank 2 are new in the end.
#[test]
fn update_with_a_blank_page() {
    let mut image: Vec<u32> = (0..96).collect();
    image[32..64].fill(!0);
    let path = named("drawing-image", &bytes(&image));
    let (printed, root) = drawn("blank-page", &format!("update 1 1 2 {path} --svg=FILE"));
    assert_eq!(moments(&root), pictures(&printed));
    let [before, after] = [0, 1].map(|moment| moments(&root)[moment].clone());
    assert_eq!(before, [6, 0, 0, 0, 2]);
    assert_eq!(after, [3, 0, 0, 3, 2]);
}

/// Every page has its place: at place 502 the programming of a quad of program page 3 is to come.
#[test]
fn pages_of_a_cut() {
    let (_, root) = drawn("pages", "cut 1 2 6 502 brown-out --svg FILE");
    let titles = page_titles(&root);
    assert_eq!(titles.len(), 3 * 2 * 8);
    let at_cut = &titles[2 * 8 + 8..2 * 8 + 16];
    let expected = [
        "blank bank 2, boot page 0: blank",
        "blank bank 2, boot page 1: blank",
        "new bank 2, program page 0: new",
        "new bank 2, program page 1: new",
        "new bank 2, program page 2: new",
        "partly bank 2, program page 3: partly written",
        "blank bank 2, program page 4: blank",
        "blank bank 2, program page 5: blank",
    ];
    assert_eq!(at_cut, expected);
    assert_eq!(titles[1], "old bank 1, boot page 1: old, protected");
    let texts: Vec<&str> = root.all().iter().map(|of| of.text.as_str()).collect();
    let operation = "At place 502 the supply fails while an operation runs: \
                     programming of quad 3 of program page 3 of bank 2, step 1 of 1.";
    assert!(texts.contains(&operation), "{texts:?}");
}

/// Before the update, and at each cut and after it; the last picture of the text is of the update that is run whole.
#[test]
fn cuts() {
    for (line, cuts, rest) in [
        ("cut 1 1 1 0 other", 1, 1),
        ("cut 1 1 1 252 other", 1, 0),
        ("cut 1 2 6 502 brown-out 00FFFF00", 1, 1),
        ("cut 2 5 70 9000 power-on", 1, 1),
        ("cut 1 2 6 23 other --read 1FC20000", 1, 1),
        (
            "cut 1 2 6 970 brown-out --then 35 other 5 --cut-start-up 1 --then 971 power-on",
            3,
            0,
        ),
    ] {
        let (printed, root) = drawn("cut", &format!("{line} --svg FILE"));
        assert_eq!(printed, run(&line.split(' ').collect::<Vec<_>>()).printed());
        let (moments, pictures) = (moments(&root), pictures(&printed));
        assert_eq!(
            (moments.len(), pictures.len()),
            (1 + 2 * cuts, 2 * cuts + rest)
        );
        assert_eq!(moments[1..], pictures[..2 * cuts], "{line}");
        let numbers: Vec<u32> = line
            .split(' ')
            .filter_map(|word| word.parse().ok())
            .collect();
        let before = Sign::fresh([numbers[0], numbers[1], numbers[2]], None).picture();
        assert_eq!(moments[0], counts_of_picture(&before), "{line}");
    }
}

/// The bank that runs is named before each bank's pages.
#[test]
fn banks_that_run() {
    let (_, root) = drawn("runs", "cut 1 1 1 252 power-on --svg FILE");
    let label = |bank: &&Element| bank.children[0].text.clone();
    let labels: Vec<String> = root.of_class("bank").iter().map(label).collect();
    let old = ["bank 1 runs", "bank 2"];
    assert_eq!(labels, [old, old, ["bank 1", "bank 2 runs"]].concat());
}

/// The option is of the whole command, in whichever part it stands.
#[test]
fn where_the_option_stands() {
    let (_, first) = drawn("where", "cut --svg FILE 1 1 1 19 0 --then 20 0 --then 21 0");
    for line in [
        "cut 1 1 1 19 0 --svg=FILE --then 20 0 --then 21 0",
        "cut 1 1 1 19 0 --then 20 --svg FILE 0 --then 21 0",
        "cut 1 1 1 19 0 --then 20 0 --then 21 0 --svg FILE",
    ] {
        assert_eq!(drawn("where", line).1, first, "{line}");
    }
    let twice = "cut 1 1 1 19 0 --svg a --then 20 0 --svg b";
    wrong(twice, "--svg is given twice");
    wrong(
        "cut 1 1 1 19 0 --svg --then 20 0",
        "the value of --svg is missing",
    );
}
