//! The picture's text: shapes with a class each, their look in one style sheet. All lengths are whole pixels, so that a picture is the same
//! everywhere.

use std::fmt::Write;

/// What the classes look like. Text that has to fit is in a fixed-pitch face, which is equally wide everywhere.
pub const STYLE: &str = r##"
text { font-family: "DejaVu Sans", Verdana, Arial, sans-serif; font-size: 11px; fill: #111; }
text.title { font-size: 17px; font-weight: bold; }
text.bold { font-weight: bold; }
text.fixed { font-family: "DejaVu Sans Mono", Menlo, Consolas, "Courier New", monospace; font-size: 12px; }
text.quiet { fill: #5a5a5a; }
text.refusal { font-size: 13px; font-weight: bold; fill: #a0000e; }
text.on-dark { font-weight: bold; fill: #fff; }
rect.paper { fill: #fff; }
rect.stripe { fill: #f1f3f5; }
rect.head { fill: #fff; stroke: #111; stroke-width: 1.5; }
rect.unfinished { fill: #fff; stroke: #111; stroke-width: 1; stroke-dasharray: 3 3; }
rect.stub { fill: #fff; stroke: #888; stroke-width: 1; }
rect.refusal { fill: #fff; stroke: #a0000e; stroke-width: 2.5; }
rect.prime { fill: #111; stroke: #111; stroke-width: 1.5; }
rect.secondary { fill: #fff; stroke: #111; stroke-width: 2; }
line.rule { stroke: #c4c8cc; stroke-width: 1; }
line.idle { stroke: #888; stroke-width: 1.2; stroke-dasharray: 2 4; }
line.running { stroke: #333; stroke-width: 2.4; }
line.stopped { stroke: #888; stroke-width: 1.2; }
circle.start { fill: #fff; stroke: #111; stroke-width: 2.5; }
path { fill: none; stroke-linejoin: round; stroke-linecap: round; }
path.tick { stroke: #00695a; stroke-width: 2; }
path.cross { stroke: #111; stroke-width: 2.2; }
.good path.shaft { stroke: #14508c; stroke-width: 1.8; }
.faulty path.shaft { stroke: #b04a00; stroke-width: 1.8; stroke-dasharray: 7 4; stroke-linecap: butt; }
.forged path.shaft { stroke: #b0006e; stroke-width: 1.5; }
.good path.head { fill: #14508c; stroke: #14508c; }
.faulty path.head { fill: #b04a00; stroke: #b04a00; }
.forged path.head { fill: #b0006e; stroke: #b0006e; }
circle.tail { stroke: #fff; stroke-width: 1.2; }
.good circle.tail { fill: #14508c; }
.faulty circle.tail { fill: #b04a00; }
path.wall { stroke: #a0000e; stroke-width: 4; stroke-linecap: butt; }
.discarded path.shaft { stroke-width: 1.1; }
.discarded text { fill: #5a5a5a; }
"##;

#[derive(Clone, Copy)]
pub enum Anchor {
    Start,
    Middle,
    End,
}

#[derive(Default)]
pub struct Svg {
    body: String,
}

impl Svg {
    /// A file of its own. `title` and `description` are what a screen reader says.
    pub fn file(self, width: i32, height: i32, title: &str, description: &str) -> String {
        let size = format!("width=\"{width}\" height=\"{height}\"");
        let style = format!("<desc>{}</desc>\n<style>{STYLE}</style>\n", escaped(description));
        format!("<?xml version=\"1.0\" encoding=\"UTF-8\"?>\n{}", self.element(&size, width, height, title, &style))
    }

    /// A part of a page of HTML, which has the style.
    pub fn inline(self, width: i32, height: i32, title: &str) -> String {
        self.element("", width, height, title, "")
    }

    fn element(self, size: &str, width: i32, height: i32, title: &str, more: &str) -> String {
        let head = format!("<svg xmlns=\"http://www.w3.org/2000/svg\" {size} viewBox=\"0 0 {width} {height}\" role=\"img\">");
        let paper = format!("<rect class=\"paper\" x=\"0\" y=\"0\" width=\"{width}\" height=\"{height}\"/>");
        format!("{head}\n<title>{}</title>\n{more}{paper}\n{}</svg>\n", escaped(title), self.body)
    }

    pub fn rect(&mut self, class: &str, x: i32, y: i32, width: i32, height: i32) {
        self.put(format_args!("<rect class=\"{class}\" x=\"{x}\" y=\"{y}\" width=\"{width}\" height=\"{height}\"/>"));
    }

    pub fn line(&mut self, class: &str, (x1, y1): (i32, i32), (x2, y2): (i32, i32)) {
        self.put(format_args!("<line class=\"{class}\" x1=\"{x1}\" y1=\"{y1}\" x2=\"{x2}\" y2=\"{y2}\"/>"));
    }

    pub fn circle(&mut self, class: &str, x: i32, y: i32, radius: i32) {
        self.put(format_args!("<circle class=\"{class}\" cx=\"{x}\" cy=\"{y}\" r=\"{radius}\"/>"));
    }

    pub fn path(&mut self, class: &str, path: &str) {
        self.put(format_args!("<path class=\"{class}\" d=\"{path}\"/>"));
    }

    pub fn text(&mut self, class: &str, anchor: Anchor, x: i32, y: i32, text: &str) {
        let anchor = match anchor {
            Anchor::Start => "",
            Anchor::Middle => " text-anchor=\"middle\"",
            Anchor::End => " text-anchor=\"end\"",
        };
        self.put(format_args!("<text class=\"{class}\"{anchor} x=\"{x}\" y=\"{y}\">{}</text>", escaped(text)));
    }

    /// A line of a schedule, with every space that it has.
    pub fn verbatim(&mut self, x: i32, y: i32, text: &str) {
        self.put(format_args!("<text class=\"fixed\" xml:space=\"preserve\" x=\"{x}\" y=\"{y}\">{}</text>", escaped(text)));
    }

    pub fn open(&mut self, class: &str) {
        self.put(format_args!("<g class=\"{class}\">"));
    }

    /// What a browser shows while the mouse is over the group just opened.
    pub fn tip(&mut self, tip: &str) {
        self.put(format_args!("<title>{}</title>", escaped(tip)));
    }

    pub fn close(&mut self) {
        self.put(format_args!("</g>"));
    }

    fn put(&mut self, element: std::fmt::Arguments) {
        writeln!(self.body, "{element}").expect("a string takes every text");
    }
}

/// Text as XML has it. A control character is not allowed there, not even escaped.
pub fn escaped(text: &str) -> String {
    let mut out = String::new();
    for c in text.chars() {
        match c {
            '&' => out.push_str("&amp;"),
            '<' => out.push_str("&lt;"),
            '>' => out.push_str("&gt;"),
            '\n' => out.push('\n'),
            c if c.is_control() || matches!(c, '\u{fffe}' | '\u{ffff}') => out.push('?'),
            c => out.push(c),
        }
    }
    out
}

/// At most this wide, in whichever face the viewer has.
pub fn width_of(text: &str, size: i32) -> i32 {
    (text.chars().count() as i32 * size * 62 + 99) / 100
}
