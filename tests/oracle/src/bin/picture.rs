//! Draws a list of lines as a timeline in SVG 1.1: `picture [options] < lines > picture.svg`.

use std::io::{self, Read, Write};
use std::ops::Range;
use std::process::ExitCode;

use oracle::calls::is_end;
use oracle::story::{Known, Mark, Names, Story};
use oracle::svg::{
    bar_paint, block, default_paint, early, flow, line, patterns, settle, sign, text, wide, Entry,
    Item, LANE, LEFT, OUT_PAINT, OUT_PATTERN, RIGHT, STYLE, WIDTH,
};

const USAGE: &str = "\
picture [--title TEXT] [--from T] [--to T] [--names FILE] < lines > picture.svg
a line of FILE is `ID NAME`, `control NUMBER NAME` or `program NUMBER NAME`";

const PLOT: f64 = RIGHT - LEFT;
/// The heights of bars, of the least space above and below them, of a lane of thin lines above
/// them, and of the space between bands.
const BAR: f64 = 22.0;
const RIM: f64 = 4.0;
const THIN_LANE: f64 = 7.0;
const GAP: f64 = 12.0;
/// From this span on the ticks have hours.
const HOURLY: u64 = 7_200;
const DAY: u64 = 86_400;

const MEANINGS: [(u8, &str); 4] = [
    (2, "start"),
    (3, "end"),
    (7, "superseded"),
    (6, "cancelled"),
];
/// Explained only where they are drawn.
const CHOICE_MEANINGS: [(u8, &str); 5] = [
    (4, "opted out"),
    (5, "opted in"),
    (8, "end, partly in, out at last"),
    (9, "end, partly out, in at last"),
    (10, "end, never in"),
];

fn main() -> ExitCode {
    if let Err(message) = run() {
        eprintln!("{message}");
        return ExitCode::FAILURE;
    }
    ExitCode::SUCCESS
}

fn run() -> Result<(), String> {
    let options = read_options(std::env::args().skip(1))?;
    let mut text = Vec::new();
    let read = io::stdin().lock().read_to_end(&mut text);
    read.map_err(|error| error.to_string())?;
    let story = Story::new(&text, &options.names);
    let scale = Scale::new(&story, &options)?;
    let picture = Drawing { story, scale }.whole(&options.title);
    let written = io::stdout().write_all(picture.as_bytes());
    written.map_err(|error| error.to_string())
}

#[derive(Default)]
struct Options {
    title: String,
    from: Option<u64>,
    to: Option<u64>,
    names: Names,
}

fn read_options(mut words: impl Iterator<Item = String>) -> Result<Options, String> {
    let mut options = Options::default();
    while let Some(word) = words.next() {
        let value = words.next().ok_or(USAGE)?;
        match word.as_str() {
            "--title" => options.title = value,
            "--from" => options.from = Some(value.parse().map_err(|_| USAGE)?),
            "--to" => options.to = Some(value.parse().map_err(|_| USAGE)?),
            "--names" => options.names = read_names(&value)?,
            _ => return Err(USAGE.into()),
        }
    }
    Ok(options)
}

fn read_names(file: &str) -> Result<Names, String> {
    let text = std::fs::read_to_string(file).map_err(|error| format!("{file}: {error}"))?;
    Names::read(&text).map_err(|line| format!("{file}: {line}\n{USAGE}"))
}

// Times.

/// The part of time that is drawn.
struct Scale {
    from: u64,
    to: u64,
}

impl Scale {
    fn new(story: &Story, options: &Options) -> Result<Self, String> {
        let (first, last) = story.extent().unwrap_or((0, story.limit()));
        let rim = (last - first) / 25 + 1;
        let from = options.from.unwrap_or(first.saturating_sub(rim));
        let to = options.to.unwrap_or(last + rim);
        if from >= to {
            return Err(format!("nothing to draw from {from} to {to}"));
        }
        Ok(Scale { from, to })
    }

    /// Times outside go to the rim.
    fn x(&self, time: u64) -> f64 {
        let passed = time.clamp(self.from, self.to) - self.from;
        LEFT + passed as f64 * PLOT / (self.to - self.from) as f64
    }

    fn shows(&self, time: u64) -> bool {
        (self.from..=self.to).contains(&time)
    }

    fn overlaps(&self, span: &Range<u64>) -> bool {
        span.start < self.to && span.end > self.from
    }

    /// The step between ticks, the least round one that leaves room for the labels.
    fn step(&self) -> u64 {
        const HOURS: [u64; 7] = [900, 1_800, 3_600, 7_200, 10_800, 21_600, 43_200];
        let span = self.to - self.from;
        let room = (PLOT / (wide(&self.to.to_string()) + 18.0)) as u64;
        let fits = |step: &u64| span / step <= room;
        let round = |unit: u64| {
            let tens = (0..10).map(move |power| unit * 10u64.pow(power));
            tens.flat_map(|ten| [ten, 2 * ten, 5 * ten])
        };
        let found = if span < HOURLY {
            round(1).find(fits)
        } else {
            HOURS.into_iter().chain(round(DAY)).find(fits)
        };
        found.unwrap_or(span)
    }
}

// The picture.

struct Drawing<'a> {
    story: Story<'a>,
    scale: Scale,
}

/// An event, by its place in the story, and when it holds a control.
type Bar = (usize, Range<u64>);

impl Drawing<'_> {
    fn whole(&self, title: &str) -> String {
        let top = if title.is_empty() { 12.0 } else { 46.0 };
        let (mut y, mut bands) = (top, String::new());
        for control in self.story.controls() {
            y = self.band(control, y, &mut bands);
        }
        let axis = self.axis(top, y);
        let (programs, y) = flow(&self.program_legend(), y + 60.0);
        let (signs, height) = flow(&self.sign_legend(), y);
        let title = text(20.0, 28.0, "title", title);
        let out = if self.shows_out() { OUT_PATTERN } else { "" };
        let patterns = patterns() + out;
        format!(
            "<svg xmlns=\"http://www.w3.org/2000/svg\" version=\"1.1\" width=\"{WIDTH}\" \
             height=\"{height}\" viewBox=\"0 0 {WIDTH} {height}\">\n<style>{STYLE}</style>\n\
             <defs>{patterns}</defs>\n<rect width=\"{WIDTH}\" height=\"{height}\" fill=\"#fff\"/>\n\
             {title}{axis}{bands}{programs}{signs}</svg>\n"
        )
    }

    /// Draws a control's band with its marks, and gives its lower end.
    fn band(&self, control: usize, top: f64, out: &mut String) -> f64 {
        let (mut above, mut below) = (self.starts(control), self.losses(control));
        let mut early = self.before_bars(control);
        let strip = top + LANE * settle(&mut above);
        let bars = strip + (THIN_LANE * settle(&mut early)).max(RIM);
        let under = bars + BAR + RIM;
        let bottom = under + LANE * settle(&mut below);
        let frame = "fill=\"none\" stroke=\"#bbb\"";
        *out += &self.title(control, strip);
        *out += &self.defaults(control, strip..under);
        *out += &block(LEFT..RIGHT, strip..under, frame);
        let drawn = self.bars(control);
        out.extend(drawn.iter().map(|bar| self.bar(control, bar, bars)));
        for (items, edge, lane) in [
            (early, bars, -THIN_LANE),
            (above, strip, -LANE),
            (below, under, LANE),
        ] {
            let y = |item: &Item| edge + lane * (item.lane as f64 + 0.5);
            out.extend(items.iter().map(|item| item.lead(y(item), edge)));
            out.extend(items.iter().map(|item| item.draw(y(item))));
        }
        bottom + GAP
    }

    fn title(&self, control: usize, strip: f64) -> String {
        let key = format!("control {control}");
        let name = self.story.names.get(&key, 0).unwrap_or_default();
        text(20.0, strip + 13.0, "b", &key) + &text(20.0, strip + 27.0, "s", name)
    }

    /// The bars in sight, by time.
    fn bars(&self, control: usize) -> Vec<Bar> {
        let limit = self.story.limit();
        let known = self.story.known.iter().enumerate();
        let mut bars: Vec<Bar> = known
            .filter_map(|(who, known)| Some((who, known.with(control, limit)?)))
            .filter(|(_, span)| self.scale.overlaps(span))
            .collect();
        bars.sort_by_key(|(_, span)| span.start);
        bars
    }

    /// A moment is seen however short it is.
    fn sides(&self, span: &Range<u64>) -> Range<f64> {
        let left = self.scale.x(span.start);
        left..self.scale.x(span.end).max(left + 2.5)
    }

    fn fits(&self, width: f64, span: &Range<u64>) -> bool {
        let sides = self.sides(span);
        sides.end - sides.start > width + 4.0
    }

    fn bar(&self, control: usize, (who, span): &Bar, top: f64) -> String {
        let known = &self.story.known[*who];
        let outs = known.out(control, self.story.limit());
        let program = known.event.program;
        let sides = self.sides(span);
        let middle = (sides.start + sides.end) / 2.0;
        let hint = bar_hint(known, span) + &out_hint(&outs);
        let mut out = format!("<g><title>{hint}</title>");
        out += &block(sides, top..top + BAR, &bar_paint(program));
        for seconds in outs.iter().filter(|seconds| self.scale.overlaps(seconds)) {
            out += &block(self.sides(seconds), top..top + BAR, OUT_PAINT);
        }
        if self.fits(wide(&known.label), span) {
            out += &text(middle, top + 15.5, "c b halo", &known.label);
            out += &text(middle, top + 15.5, "c b", &known.label);
        }
        out + "</g>\n"
    }

    /// The thin lines before the bars. They have lanes of their own, so they hide no bar.
    fn before_bars(&self, control: usize) -> Vec<Item<'_>> {
        let (mut items, limit) = (Vec::new(), self.story.limit());
        for known in &self.story.known {
            let bar = known.with(control, limit);
            if let Some((bar, early)) = bar.zip(self.early(known, control)) {
                let (since, hint) = (self.scale.x(early.start), bar_hint(known, &bar));
                let item = self.item(0, bar.start..bar.start, "", hint);
                items.push(Item { since, ..item });
            }
        }
        items
    }

    /// The moments in sight in which the event might have begun.
    fn early(&self, known: &Known, control: usize) -> Option<Range<u64>> {
        let span = known.early(control, self.story.limit());
        span.filter(|span| self.scale.overlaps(span))
    }

    fn defaults(&self, control: usize, strip: Range<f64>) -> String {
        let (changes, bars) = (&self.story.defaults[control], self.bars(control));
        let next = changes.iter().skip(1).map(|change| change.0);
        let ends = next.chain([self.story.limit()]);
        let mut out = String::new();
        for (&(begin, program), end) in changes.iter().zip(ends) {
            let (span, label) = (begin..end, format!("default {program}"));
            if !self.scale.overlaps(&span) {
                continue;
            }
            let x = self.scale.x(begin)..self.scale.x(end);
            out += &block(x, strip.clone(), &default_paint(program));
            let width = 0.8 * wide(&label);
            for gap in gaps(span, &bars).filter(|gap| self.fits(width, gap)) {
                let middle = (self.scale.x(gap.start) + self.scale.x(gap.end)) / 2.0;
                out += &text(middle, strip.end - 11.0, "s c", &label);
            }
        }
        out
    }

    fn item<'a>(&self, code: u8, span: Range<u64>, label: &'a str, hint: String) -> Item<'a> {
        Item {
            code: if self.scale.shows(span.start) {
                code
            } else {
                0
            },
            x: self.scale.x(span.start),
            since: self.scale.x(span.start),
            until: self.scale.x(span.end),
            label,
            hint,
            lane: 0,
        }
    }

    /// The marks above a band. A bar too short for its label leaves it to its mark. If that is out
    /// of sight, the label stands alone at the rim.
    fn starts(&self, control: usize) -> Vec<Item<'_>> {
        let mut items = Vec::new();
        for mark in self.marks(control).filter(|mark| mark.code == 2) {
            let known = &self.story.known[mark.who];
            let bar = known.with(control, self.story.limit());
            let fits = bar.is_some_and(|bar| self.fits(wide(&known.label), &bar));
            let label = if fits { "" } else { &known.label };
            items.push(self.item(2, mark.time..mark.time, label, self.row(mark)));
        }
        for (who, span) in self.bars(control) {
            let label = &self.story.known[who].label;
            if !self.scale.shows(span.start) && !self.fits(wide(label), &span) {
                items.push(self.item(0, span.start..span.start, label, label.clone()));
            }
        }
        items
    }

    /// The marks below a band: ends, cancellations, choices, and who goes on without the control.
    fn losses(&self, control: usize) -> Vec<Item<'_>> {
        let (mut items, limit) = (Vec::new(), self.story.limit());
        for mark in self
            .marks(control)
            .filter(|mark| !matches!(mark.code, 2 | 7))
        {
            let known = &self.story.known[mark.who];
            let bar = known.with(control, limit);
            let held = is_end(mark.code) || bar.is_some_and(|bar| bar.contains(&mark.time));
            let label = if held { "" } else { &known.label };
            items.push(self.item(mark.code, mark.time..mark.time, label, self.row(mark)));
        }
        let known = self.story.known.iter();
        items.extend(known.filter_map(|known| self.waiting(known, control)));
        items
    }

    /// Who goes on without the control. If it never held it, its start is here.
    fn waiting<'a>(&self, known: &'a Known, control: usize) -> Option<Item<'a>> {
        let limit = self.story.limit();
        let span = known.without(control, limit)?;
        let (id, begin, end) = (known.event.id, span.start, span.end);
        let (code, mut hint) = if known.superseded(control, begin) {
            let hint = format!("{begin} {id} 7, without control {control} to {end}");
            (7, hint)
        } else {
            let hint = format!("event {id} without control {control} from {begin} to {end}");
            (0, hint)
        };
        let mut since = begin;
        if known.with(control, limit).is_none() {
            since = known.event.earliest_start();
            hint += &format!(", earliest start {since}");
        }
        let item = Item {
            since: self.scale.x(since),
            ..self.item(code, span, &known.label, hint)
        };
        self.scale.overlaps(&(since..end)).then_some(item)
    }

    fn marks(&self, control: usize) -> impl Iterator<Item = &Mark> {
        let here = move |mark: &&Mark| mark.controls >> control & 1 == 1;
        let marks = self.story.marks.iter().filter(here);
        marks.filter(|mark| self.scale.shows(mark.time))
    }

    /// The row as the program `schedule` prints it.
    fn row(&self, mark: &Mark) -> String {
        let id = self.story.known[mark.who].event.id;
        format!("{} {id} {}", mark.time, mark.code)
    }

    /// Ticks with their labels below, clock readings above the line.
    fn axis(&self, top: f64, y: f64) -> String {
        let Scale { from, to } = self.scale;
        let (step, hourly) = (self.scale.step(), to - from >= HOURLY);
        let mut out = line((LEFT, y), (RIGHT, y), "axis");
        for time in (from.div_ceil(step)..=to / step).map(|count| count * step) {
            let x = self.scale.x(time);
            let hours = match step {
                DAY.. => format!("day {}", time / DAY),
                _ => format!("{:02}:{:02}", time / 3_600 % 24, time / 60 % 60),
            };
            out += &line((x, top), (x, y), "grid");
            out += &line((x, y), (x, y + 5.0), "axis");
            out += &text(x, y + 18.0, "s c", &time.to_string());
            if hourly {
                out += &text(x, y + 32.0, "c b", &hours);
            }
        }
        let readings = self.story.readings.iter();
        for &reading in readings.filter(|&&reading| self.scale.shows(reading)) {
            let x = self.scale.x(reading);
            out += &line((x, y - 7.0), (x, y), "read");
        }
        out += &text(20.0, y + 18.0, "s", "seconds");
        out + &text(20.0, y + 32.0, "s", if hourly { "hh:mm" } else { "" })
    }

    /// The programs, best first.
    fn program_legend(&self) -> Vec<Entry> {
        let programs = (0u8..).zip(&self.story.programs);
        let mut added: Vec<(u8, u8)> = programs
            .filter_map(|(number, program)| Some((program.as_ref()?.primacy, number)))
            .collect();
        added.sort_unstable();
        let light = (String::new(), 0.0, "light: its default".into());
        let entries = added.into_iter().map(|program| self.entry(program));
        entries.chain([light]).collect()
    }

    fn entry(&self, (primacy, number): (u8, u8)) -> Entry {
        let key = format!("program {number}");
        let name = self.story.names.get(&key, 0);
        let name = name.map_or(String::new(), |name| format!(" {name}"));
        let bar = block(0.0..24.0, -7.0..7.0, &bar_paint(number));
        let light = block(26.0..44.0, -7.0..7.0, &default_paint(number));
        (
            bar + &light,
            44.0,
            format!("{key}{name} (primacy {primacy})"),
        )
    }

    /// The signs, and the lines that there are.
    fn sign_legend(&self) -> Vec<Entry> {
        let drawn = self
            .story
            .marks
            .iter()
            .filter(|mark| self.scale.shows(mark.time));
        let drawn: Vec<u8> = drawn.map(|mark| mark.code).collect();
        let of_choices = CHOICE_MEANINGS.into_iter();
        let of_choices = of_choices.filter(|(code, _)| drawn.contains(code));
        let signs = MEANINGS.into_iter().chain(of_choices);
        let signs = signs.map(|(code, meaning)| (sign(code, 9.0, 0.0), 18.0, meaning.into()));
        let wait = line((0.0, 0.0), (30.0, 0.0), "wait") + &line((30.0, -3.0), (30.0, 3.0), "axis");
        let read = line((4.0, -5.0), (4.0, 5.0), "read");
        let mut entries: Vec<Entry> = signs.collect();
        if self.shows_out() {
            let out = block(0.0..30.0, -7.0..7.0, OUT_PAINT);
            entries.push((out, 30.0, "the user is out".into()));
        }
        entries.push((wait, 30.0, "its period goes on without the control".into()));
        if self.shows_early() {
            let meaning = "from its earliest start to its start";
            entries.push((early(1.0..30.0, 0.0, true), 30.0, meaning.into()));
        }
        entries.push((read, 8.0, "clock reading".into()));
        entries
    }

    fn shows_out(&self) -> bool {
        let shown = |control| {
            let known = self.story.known.iter();
            let mut outs = known.flat_map(|known| known.out(control, self.story.limit()));
            outs.any(|out| self.scale.overlaps(&out))
        };
        self.story.controls().any(shown)
    }

    fn shows_early(&self) -> bool {
        let shown = |control| {
            let mut known = self.story.known.iter();
            known.any(|known| self.early(known, control).is_some())
        };
        self.story.controls().any(shown)
    }
}

fn out_hint(outs: &[Range<u64>]) -> String {
    let hint = |out: &Range<u64>| format!(", out from {} to {}", out.start, out.end);
    outs.iter().map(hint).collect()
}

fn bar_hint(known: &Known, span: &Range<u64>) -> String {
    let (id, program) = (known.event.id, known.event.program);
    let (begin, end, earliest) = (span.start, span.end, known.event.earliest_start());
    format!("event {id}, program {program}: {begin} to {end}, earliest start {earliest}")
}

/// The parts of a span that no bar covers. The bars go by time.
fn gaps(span: Range<u64>, bars: &[Bar]) -> impl Iterator<Item = Range<u64>> + '_ {
    let (start, end) = (span.start, span.end);
    let begins = [start].into_iter().chain(bars.iter().map(|bar| bar.1.end));
    let ends = bars.iter().map(|bar| bar.1.start).chain([end]);
    let gaps = begins.zip(ends).map(move |(a, b)| a.max(start)..b.min(end));
    gaps.filter(|gap| gap.start < gap.end)
}
