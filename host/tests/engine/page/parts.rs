//! A page taken apart.

/// What was met and must have been met in the end.
#[derive(Default)]
pub struct Seen(std::collections::BTreeSet<&'static str>);

impl Seen {
    pub fn met(&mut self, class: &'static str, is_met: bool) {
        if is_met {
            self.0.insert(class);
        }
    }

    pub fn all(&self, classes: &[&'static str]) {
        for class in classes {
            assert!(self.0.contains(class), "never met: {class}");
        }
    }
}

pub type Held = Result<(), String>;

/// A falsehood, unless the page tells what it must.
pub fn tells(what: &str, told: &str, must: &str) -> Held {
    match told == must {
        true => Ok(()),
        false => Err(format!("{what}: {told}, but it must be {must}")),
    }
}

/// The text between two marks, and what follows.
pub fn between<'a>(text: &'a str, from: &str, to: &str) -> Option<(&'a str, &'a str)> {
    let (_, rest) = text.split_once(from)?;
    rest.split_once(to)
}

/// The section of a cell; none where it is unsound or not shown.
pub fn article(page: &str, number: u16) -> Option<&str> {
    let from = format!("<article class=\"cell\" id=\"cell{number}\" data-cell=\"{number}\">");
    between(page, &from, "</article>").map(|(article, _)| article)
}

/// A fact of a cell's section by its name.
pub fn fact<'a>(article: &'a str, name: &str) -> Option<&'a str> {
    let from = format!("<dt>{name}</dt><dd>");
    between(article, &from, "</dd>").map(|(fact, _)| fact)
}

/// The index: for each line its cell's name, and the columns behind it.
pub fn index_line<'a>(page: &'a str, way: &str) -> Option<Vec<&'a str>> {
    let (index, _) = between(page, "<nav>", "</nav>")?;
    let way = format!("<td><a href=\"{way}\">");
    let (_, line) = index.split_once(&way)?;
    let (line, _) = line.split_once("</td></tr>")?;
    Some(line.split("</td><td>").collect())
}

/// A word of a grid: its address, itself, its mark and what it tells.
pub struct Told {
    pub address: usize,
    pub word: u16,
    pub mark: String,
    /// Nothing where words of the image are drawn together.
    pub told: String,
}

pub fn grid(article: &str) -> Vec<Told> {
    let (table, _) = between(article, "<table class=\"words\"", "</table>").unwrap();
    let rows = table.lines().filter(|line| line.starts_with("<tr"));
    rows.flat_map(row).collect()
}

fn row(row: &str) -> Vec<Told> {
    let hexadecimal = |text: &str| usize::from_str_radix(text, 16).unwrap();
    let (first, mut rest) = between(row, "<th scope=\"row\">", "</th>").unwrap();
    let first = hexadecimal(first);
    if row.starts_with("<tr class=\"gap\">") {
        let (last, rest) = between(rest, "to ", ": each ").unwrap();
        let word = hexadecimal(&rest[..4]) as u16;
        let told = |address| Told {
            address,
            word,
            mark: "I".into(),
            told: String::new(),
        };
        return (first..=hexadecimal(last)).map(told).collect();
    }
    let mut words = Vec::new();
    while let Some((told, after)) = between(rest, "aria-label=\"", "\">") {
        let (mark, left) = between(after, "<i>", "</i></td>").unwrap();
        words.push(Told {
            address: first + words.len(),
            word: hexadecimal(&after[..4]) as u16,
            mark: mark.into(),
            told: told.into(),
        });
        rest = left;
    }
    words
}
