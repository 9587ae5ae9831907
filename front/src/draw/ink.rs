//! The elements of a picture as text: what may stand in XML, how wide words are, and the few shapes that are used.

/// What XML 1.0 forbids is dropped, a control character is a blank, and the four signs of markup are written out.
pub fn escape(text: &str) -> String {
    let mut out = String::with_capacity(text.len());
    for one in text.chars() {
        match one {
            '&' => out.push_str("&amp;"),
            '<' => out.push_str("&lt;"),
            '>' => out.push_str("&gt;"),
            '"' => out.push_str("&quot;"),
            '\t' | '\n' | '\r' => out.push(' '),
            '\u{fffe}' | '\u{ffff}' => {}
            _ if one.is_control() => {}
            _ => out.push(one),
        }
    }
    out
}

/// Columns of a fixed-width font that a text takes; a sign outside of ASCII may take two.
pub fn columns(text: &str) -> i32 {
    text.chars().map(columns_of).sum()
}

fn columns_of(one: char) -> i32 {
    if one.is_ascii() || one == '…' {
        1
    } else {
        2
    }
}

/// The text in so many columns at most, with an ellipsis for what is left out: the middle, since names often differ at their ends.
pub fn shorten(text: &str, most: i32) -> String {
    if columns(text) <= most {
        return text.to_string();
    }
    let tail = front(text.chars().rev(), most / 2);
    let head = front(text.chars(), most - 1 - most / 2);
    head.into_iter()
        .chain(['…'])
        .chain(tail.into_iter().rev())
        .collect()
}

/// The first signs, as many as fit.
fn front(signs: impl Iterator<Item = char>, most: i32) -> Vec<char> {
    let mut used = 0;
    let fits = |one: &char| {
        used += columns_of(*one);
        used <= most
    };
    signs.take_while(fits).collect()
}

/// The text broken at blanks into lines that fit a width in bold letters of this size, as far as its words allow.
pub fn wrap(text: &str, size: i32, width: i32) -> Vec<String> {
    let fits = |line: &str| small_width(line) * size / 10 <= width;
    let mut lines = vec![String::new()];
    for word in text.split(' ') {
        let last = lines.len() - 1;
        let longer = format!("{} {word}", lines[last]);
        if lines[last].is_empty() {
            lines[last].push_str(word);
        } else if fits(&longer) {
            lines[last] = longer;
        } else {
            lines.push(word.to_string());
        }
    }
    lines
}

/// The width of a text in small letters, by the widest of the fonts that it may get.
pub fn small_width(text: &str) -> i32 {
    let tenths = |one: char| match one {
        'i' | 'j' | 'l' => 31,
        'f' | 't' | 'r' | ' ' | '.' | '-' => 45,
        'm' | 'w' | 'M' | 'W' | '…' => 110,
        'c' | 'k' | 's' | 'v' | 'x' | 'y' | 'z' | '_' => 65,
        'a'..='z' | '0'..='9' => 70,
        _ if one.is_ascii() => 86,
        _ => 130,
    };
    text.chars().map(tenths).sum::<i32>() / 10 + 1
}

/// The width of a chip with this text.
pub fn chip_width(text: &str) -> i32 {
    (columns(text) * 71 + 9) / 10 + 9
}

/// How far a chip reaches to the right of its lane.
pub const CHIP_OVER: i32 = 7;
pub const CHIP_HEIGHT: i32 = 20;
/// How wide a cross is, and how high.
pub const CROSS: i32 = 10;

#[derive(Default)]
pub struct Ink {
    pub out: String,
}

impl Ink {
    pub fn add(&mut self, piece: &str) {
        self.out.push_str(piece);
        self.out.push('\n');
    }

    pub fn text(&mut self, x: i32, y: i32, class: &str, content: &str) {
        let content = escape(content);
        self.add(&format!(
            r#"<text x="{x}" y="{y}" class="{class}">{content}</text>"#
        ));
    }

    /// A text of so many columns at most; what is left out is told on pointing at it.
    pub fn text_within(&mut self, x: i32, y: i32, class: &str, content: &str, most: i32) {
        self.told_text(x, y, class, &shorten(content, most), content);
    }

    /// A text that stands for a longer one, which is told on pointing at it.
    pub fn told_text(&mut self, x: i32, y: i32, class: &str, short: &str, full: &str) {
        if short == full {
            return self.text(x, y, class, full);
        }
        let (short, full) = (escape(short), escape(full));
        self.add(&format!(
            r#"<text x="{x}" y="{y}" class="{class}"><title>{full}</title>{short}</text>"#
        ));
    }

    pub fn rect(&mut self, class: &str, x: i32, y: i32, width: i32, height: i32, round: i32) {
        self.add(&format!(
            r#"<rect x="{x}" y="{y}" width="{width}" height="{height}" rx="{round}" class="{class}"/>"#
        ));
    }

    pub fn path(&mut self, class: &str, way: &str) {
        self.add(&format!(r#"<path class="{class}" d="{way}"/>"#));
    }

    /// An entry as it joins the lane at `lane`; `full` is told on pointing at it.
    pub fn chip(&mut self, look: &str, lane: i32, middle: i32, text: &str, full: &str) {
        let width = chip_width(text);
        let (left, top) = (lane + CHIP_OVER - width, middle - CHIP_HEIGHT / 2);
        self.add(&format!(
            r#"<g class="chip {look}"><title>{}</title>"#,
            escape(full)
        ));
        self.rect("box", left, top, width, CHIP_HEIGHT, 5);
        self.text(left + width / 2, middle + 4, "mono mid", text);
        self.add("</g>");
    }

    /// An arrow's head, its tip at the given place, pointing right.
    pub fn head(&mut self, look: &str, x: i32, y: i32) {
        self.path(&format!("tip {look}"), &format!("M{x} {y}l-8 -5v10z"));
    }

    pub fn cross(&mut self, class: &str, x: i32, y: i32) {
        let (left, top) = (x - CROSS / 2, y - CROSS / 2);
        self.path(
            class,
            &format!("M{left} {top}l{CROSS} {CROSS}m0 -{CROSS}l-{CROSS} {CROSS}"),
        );
    }
}

#[cfg(test)]
mod tests {
    use super::*;

    #[test]
    fn markup_and_forbidden_signs_do_not_come_through() {
        assert_eq!(
            escape("a<b>&\"c\u{0}\u{1b}\n\u{ffff}"),
            "a&lt;b&gt;&amp;&quot;c "
        );
    }

    #[test]
    fn long_names_are_shortened_and_short_ones_are_not() {
        assert_eq!(shorten("limit", 5), "limit");
        assert_eq!(shorten("limits", 5), "li…ts");
        assert_eq!(columns(&shorten("長い名前の場所", 6)), 5);
    }

    #[test]
    fn lines_are_broken_at_blanks() {
        assert_eq!(
            wrap("a power cut can leave", 16, 140),
            ["a power cut", "can leave"]
        );
        assert_eq!(wrap("a power cut can leave", 16, 400).len(), 1);
    }
}
