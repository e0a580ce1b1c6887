//! The curve as a picture, line by line as its layout is published.

use crate::curve::{of_trace, refused, Curve, SIZES};
use crate::replay::{check, Trace};

/// The misses' axis: its step, and how many steps it has.
#[derive(Clone, Copy, PartialEq, Eq, Debug)]
pub struct Axis {
    pub step: u32,
    pub steps: u32,
}

impl Axis {
    /// For so many misses at most, those with one frame.
    pub fn of(most: u32) -> Axis {
        let powers = (0..).map(|power| 10_u32.pow(power));
        let mut numbers = powers.flat_map(|power| [power, 2 * power, 5 * power]);
        let step = numbers.find(|step| 10 * step >= most);
        let step = step.expect("a step that is great enough");
        Axis {
            step,
            steps: most.div_ceil(step).max(1),
        }
    }

    pub fn y(self, misses: u32) -> u32 {
        940 - 760 * misses / (self.step * self.steps)
    }

    /// The numbers at its steps, without 0.
    fn marks(self) -> impl Iterator<Item = u32> {
        (1..=self.steps).map(move |turn| turn * self.step)
    }
}

pub fn x(frames: u32) -> u32 {
    188 + 12 * frames
}

/// The sizes that are marked, but for the first, 1.
fn marked_sizes() -> impl Iterator<Item = u32> {
    (16..=128).step_by(16)
}

/// The picture of a trace's curve.
pub fn picture(trace: &Trace, curve: &Curve) -> String {
    let axis = Axis::of(curve[0]);
    let frames = trace.settings.frames;
    let own = (frames, curve[frames as usize - 1]);
    let parts = [
        heading(trace.records.len()),
        grid(axis),
        misses_named(axis),
        frames_named(),
        axes(frames),
        drawn(axis, curve),
        own_size(axis, own),
        vec!["</svg>".to_string()],
    ];
    parts
        .concat()
        .iter()
        .map(|line| format!("{line}\n"))
        .collect()
}

/// The picture of the trace in these bytes, or the line by which it is refused.
pub fn told(bytes: &[u8]) -> String {
    let drawn = |trace: Trace| Ok(picture(&trace, &of_trace(&trace, SIZES)?));
    check(bytes).and_then(drawn).unwrap_or_else(refused)
}

fn heading(records: usize) -> Vec<String> {
    vec![
        "<svg xmlns=\"http://www.w3.org/2000/svg\" width=\"180mm\" height=\"115mm\" \
         viewBox=\"0 0 1800 1150\" font-family=\"sans-serif\" font-size=\"32\">"
            .to_string(),
        "<title>LRU misses by pool size</title>".to_string(),
        "<rect width=\"1800\" height=\"1150\" fill=\"white\"/>".to_string(),
        "<text x=\"200\" y=\"64\" font-size=\"48\">LRU misses by pool size</text>".to_string(),
        format!("<text x=\"200\" y=\"112\">records {records}</text>"),
    ]
}

/// Lines within a group.
fn group(first: &str, lines: impl IntoIterator<Item = String>) -> Vec<String> {
    let mut group = vec![format!("<g {first}>")];
    group.extend(lines);
    group.push("</g>".to_string());
    group
}

fn grid(axis: Axis) -> Vec<String> {
    let line = |misses| format!("<path d=\"M200 {}H1724\"/>", axis.y(misses));
    let lines = axis.marks().map(line);
    group("fill=\"none\" stroke=\"#bbb\" stroke-width=\"2\"", lines)
}

fn misses_named(axis: Axis) -> Vec<String> {
    let line = |misses| {
        let y = axis.y(misses) + 11;
        format!("<text x=\"180\" y=\"{y}\">{misses}</text>")
    };
    group(
        "text-anchor=\"end\"",
        [0].into_iter().chain(axis.marks()).map(line),
    )
}

fn frames_named() -> Vec<String> {
    let line = |frames| format!("<text x=\"{}\" y=\"990\">{frames}</text>", x(frames));
    let mut lines: Vec<String> = [1].into_iter().chain(marked_sizes()).map(line).collect();
    let words = [
        "<text x=\"962\" y=\"1050\">frames</text>",
        "<text x=\"962\" y=\"1110\">never rises: more frames never cost more misses</text>",
        "<text transform=\"translate(50 560) rotate(-90)\">misses</text>",
    ];
    lines.extend(words.map(String::from));
    group("text-anchor=\"middle\"", lines)
}

fn axes(own: u32) -> Vec<String> {
    let line = |frames| format!("<path d=\"M{} 940V952\"/>", x(frames));
    let mut lines = vec!["<path d=\"M200 180V940H1724\"/>".to_string()];
    lines.extend([1].into_iter().chain(marked_sizes()).map(line));
    let own = x(own);
    lines.push(format!(
        "<path d=\"M{own} 940V180\" stroke-dasharray=\"12 10\"/>"
    ));
    group("fill=\"none\" stroke=\"black\" stroke-width=\"3\"", lines)
}

fn drawn(axis: Axis, curve: &Curve) -> Vec<String> {
    let point = |(frames, misses): (u32, &u32)| format!("{},{}", x(frames), axis.y(*misses));
    let points: Vec<String> = (1..).zip(curve).map(point).collect();
    vec![format!(
        "<polyline points=\"{}\" fill=\"none\" stroke=\"black\" stroke-width=\"6\" \
         stroke-linejoin=\"round\"/>",
        points.join(" ")
    )]
}

fn own_size(axis: Axis, (frames, misses): (u32, u32)) -> Vec<String> {
    let (x, y) = (x(frames), axis.y(misses));
    let anchor = if frames > 64 { "end" } else { "start" };
    vec![
        format!(
            "<circle cx=\"{x}\" cy=\"{y}\" r=\"12\" fill=\"white\" stroke=\"black\" \
             stroke-width=\"5\"/>"
        ),
        format!(
            "<text x=\"{x}\" y=\"152\" text-anchor=\"{anchor}\">\
             own size: frames {frames}, misses {misses}</text>"
        ),
    ]
}
