//! Pieces of SVG 1.1 text: lines, texts, the colours of programs and the signs of codes.

use std::ops::Range;

pub const WIDTH: f64 = 1_200.0;
/// Where the drawn time begins and ends.
pub const LEFT: f64 = 156.0;
pub const RIGHT: f64 = WIDTH - 34.0;
/// The height of a lane of marks.
pub const LANE: f64 = 19.0;

/// The colour of each program, and the lines of its pattern in a square of 8.
const PROGRAMS: [([u8; 3], &str); 8] = [
    ([110, 110, 110], ""),
    ([0, 114, 178], "M-2,2L2,-2M0,8L8,0M6,10L10,6"),
    ([0, 140, 100], "M-2,6L2,10M0,0L8,8M6,-2L10,2"),
    ([214, 140, 0], "M0,4H8"),
    ([60, 160, 220], "M4,0V8"),
    ([200, 80, 0], "M0,0L8,8M0,8L8,0"),
    ([180, 70, 140], "M3,4H5M7,0H8M0,0H1M7,8H8M0,8H1"),
    ([140, 120, 0], "M4,0V8M0,4H8"),
];

pub const STYLE: &str = "\
text{font-family:'DejaVu Sans',Verdana,Arial,sans-serif;font-size:12px;fill:#111}
.title{font-size:18px;font-weight:bold}.b{font-weight:bold}.c{text-anchor:middle}
.s{font-size:10px;fill:#444}.e{text-anchor:end}.w{fill:#fff}.d{font-size:10px;font-weight:bold}
.halo,.thin{stroke:#fff;stroke-width:4;stroke-linejoin:round}.thin{stroke-width:2.5}
.grid{stroke:#ddd}.axis{stroke:#111}.read{stroke:#888}.lead{stroke:#888;stroke-width:.8}
.wait{stroke:#111;stroke-dasharray:2,3}.early{stroke:#111;stroke-width:1.4}
.sign{stroke:#111;stroke-width:1.2}";

/// About the width of a text of 12 pixels.
pub fn wide(text: &str) -> f64 {
    7.6 * text.chars().count() as f64
}

pub fn text(x: f64, y: f64, class: &str, content: &str) -> String {
    if content.is_empty() {
        return String::new();
    }
    let content = escape(content);
    format!("<text x=\"{x:.1}\" y=\"{y:.1}\" class=\"{class}\">{content}</text>\n")
}

pub fn line(from: (f64, f64), to: (f64, f64), class: &str) -> String {
    let ((x, y), (x2, y2)) = (from, to);
    format!("<path d=\"M{x:.1},{y:.1}L{x2:.1},{y2:.1}\" class=\"{class}\" fill=\"none\"/>\n")
}

/// The line before the start of an event, from its earliest start on. Its left end is marked unless
/// it lies out of sight.
pub fn early(x: Range<f64>, y: f64, is_whole: bool) -> String {
    let mut out = line((x.start, y), (x.end, y), "early");
    if is_whole {
        out += &line((x.start, y - 2.2), (x.start, y + 2.2), "early");
    }
    out
}

pub fn block(x: Range<f64>, y: Range<f64>, paint: &str) -> String {
    let (width, height) = (x.end - x.start, y.end - y.start);
    let (x, y) = (x.start, y.start);
    format!("<rect x=\"{x:.1}\" y=\"{y:.1}\" width=\"{width:.1}\" height=\"{height:.1}\" {paint}/>")
}

pub fn escape(text: &str) -> String {
    let text: String = text.chars().filter(|c| !c.is_control()).collect();
    let text = text.replace('&', "&amp;").replace('<', "&lt;");
    text.replace('>', "&gt;")
}

/// The colour of a program, thinned to this part of its strength.
fn colour(program: u8, part: f64) -> String {
    let [red, green, blue] = PROGRAMS[usize::from(program)].0;
    let thin = |shade: u8| 255 - ((255 - shade) as f64 * part) as u8;
    format!("rgb({},{},{})", thin(red), thin(green), thin(blue))
}

pub fn patterns() -> String {
    let pattern = |(number, (_, lines)): (u8, &(_, &str))| {
        let (back, front) = (colour(number, 0.4), colour(number, 1.0));
        format!(
            "<pattern id=\"p{number}\" width=\"8\" height=\"8\" patternUnits=\"userSpaceOnUse\">\
             <rect width=\"8\" height=\"8\" fill=\"{back}\"/>\
             <path d=\"{lines}\" stroke=\"{front}\" stroke-width=\"1.4\" fill=\"none\"/></pattern>\n"
        )
    };
    (0u8..).zip(&PROGRAMS).map(pattern).collect()
}

/// Laid over a bar where the user is out.
pub const OUT_PAINT: &str = "fill=\"url(#out)\"";

/// Closer lines than those of the programs, in black.
pub const OUT_PATTERN: &str = "\
     <pattern id=\"out\" width=\"5\" height=\"5\" patternUnits=\"userSpaceOnUse\">\
     <rect width=\"5\" height=\"5\" fill=\"#fff\" fill-opacity=\".65\"/>\
     <path d=\"M-1,4L1,6M0,0L5,5M4,-1L6,1\" stroke=\"#111\" stroke-width=\"1\" fill=\"none\"/>\
     </pattern>\n";

pub fn bar_paint(program: u8) -> String {
    let rim = colour(program, 1.0);
    format!("fill=\"url(#p{program})\" stroke=\"{rim}\" stroke-width=\"1.5\"")
}

pub fn default_paint(program: u8) -> String {
    format!("fill=\"{}\"", colour(program, 0.16))
}

/// The sign of a code, with the code in it.
pub fn sign(code: u8, x: f64, y: f64) -> String {
    let (path, fill, class) = match code {
        2 => ("m-7,0a7,7 0 1 0 14,0a7,7 0 1 0 -14,0z", "#fff", "d c"),
        3 | 8 | 9 => ("m-6.5,-6.5h13v13h-13z", "#fff", "d c"),
        4 => ("m-6.5,-6.5h13v8l-6.5,6.5l-6.5,-6.5z", "#fff", "d c"),
        5 => ("m-6.5,6.5h13v-8l-6.5,-6.5l-6.5,6.5z", "#fff", "d c"),
        6 => (
            "m-3,-7.5h6l4.5,4.5v6l-4.5,4.5h-6l-4.5,-4.5v-6z",
            "#a00",
            "d c w",
        ),
        7 => ("m-9,0l9,-9l9,9l-9,9z", "#111", "d c w"),
        10 => ("m-8.5,-6.5h17v13h-17z", "#fff", "d c"),
        _ => return String::new(),
    };
    let digit = text(x, y + 3.6, class, &code.to_string());
    format!("<path d=\"M{x:.1},{y:.1}{path}\" fill=\"{fill}\" class=\"sign\"/>{digit}")
}

/// A mark beside a band. Code 0 has no sign of its own.
pub struct Item<'a> {
    pub code: u8,
    pub x: f64,
    /// Where its thin line begins; `x` if it has none.
    pub since: f64,
    /// Where its dashed line ends; `x` if it has none.
    pub until: f64,
    pub label: &'a str,
    pub hint: String,
    pub lane: usize,
}

impl Item<'_> {
    fn half(&self) -> f64 {
        if self.code == 0 {
            1.0
        } else {
            9.0
        }
    }

    /// A label that would be cut off at the right goes to the left of its sign.
    fn turned(&self) -> bool {
        self.x + self.half() + wide(self.label) > WIDTH - 4.0
    }

    fn extent(&self) -> Range<f64> {
        let (half, room) = (self.half(), wide(self.label) + self.half());
        let (left, right) = if self.turned() {
            (room, half)
        } else {
            (half, room)
        };
        self.since.min(self.x - left)..self.until.max(self.x + right)
    }

    /// The line between the mark and its band. It comes first, below the marks of its side.
    pub fn lead(&self, y: f64, edge: f64) -> String {
        line((self.x, edge), (self.x, y), "lead")
    }

    pub fn draw(&self, y: f64) -> String {
        let mut out = format!("<g><title>{}</title>\n", escape(&self.hint));
        if self.since < self.x {
            out += &early(self.since..self.x, y, self.since > LEFT);
        }
        if self.until > self.x {
            out += &line((self.x, y + 6.5), (self.until, y + 6.5), "wait");
        }
        if self.until > self.x && self.until < RIGHT {
            out += &line((self.until, y + 3.0), (self.until, y + 8.0), "axis");
        }
        let (away, class) = if self.turned() {
            (-1.0, " e")
        } else {
            (1.0, "")
        };
        let x = self.x + away * (self.half() + 2.0);
        out += &text(x, y + 3.0, &format!("thin{class}"), self.label);
        out += &text(x, y + 3.0, class.trim(), self.label);
        out + &sign(self.code, self.x, y) + "</g>\n"
    }
}

/// Gives each item the first lane in which it meets nobody, short ones first, and the number of
/// lanes.
pub fn settle(items: &mut [Item]) -> f64 {
    let long = |item: &Item| item.until > item.x;
    items.sort_by(|a, b| long(a).cmp(&long(b)).then(a.x.total_cmp(&b.x)));
    let mut lanes: Vec<Vec<Range<f64>>> = Vec::new();
    for item in items {
        let space = item.extent();
        let free = |lane: &Vec<Range<f64>>| {
            lane.iter()
                .all(|other| other.end <= space.start || space.end <= other.start)
        };
        item.lane = lanes.iter().position(free).unwrap_or(lanes.len());
        lanes.resize_with(lanes.len().max(item.lane + 1), Vec::new);
        lanes[item.lane].push(space);
    }
    lanes.len() as f64
}

/// What is drawn, its width and what it means.
pub type Entry = (String, f64, String);

/// Puts entries side by side, and gives the next free line.
pub fn flow(entries: &[Entry], top: f64) -> (String, f64) {
    let (mut x, mut y, mut out) = (20.0, top, String::new());
    for (drawn, room, meaning) in entries {
        let width = room + 0.92 * wide(meaning) + 26.0;
        if x + width > WIDTH {
            (x, y) = (20.0, y + 24.0);
        }
        let meaning = text(room + 6.0, 4.0, "", meaning);
        out += &format!("<g transform=\"translate({x:.1},{y:.1})\">{drawn}{meaning}</g>\n");
        x += width;
    }
    (out, y + 26.0)
}
