//! The drawing: graph paper with a fine line every 5 days, every 5,000 samples and every 5 mm.

use crate::year::{Day, MONTHS, SEED};
use std::fmt::Write;

const WIDTH: usize = 1200;
const HEIGHT: usize = 710;
const LEFT: usize = 84;
const DAY: usize = 3;
/// the height at which no sample differs, and the highest line in thousands of samples
const ZERO: usize = 472;
const THOUSAND: usize = 3;
const TOP: usize = 125;
/// what the rain stands on
const GROUND: usize = 598;
const MILLIMETRE: usize = 3;
const MOST_RAIN: usize = 30;

const INK: &str = "#2b2a26";
const PAPER: &str = "#fdf8ec";
const FINE: &str = "#eee4cb";
const BOLD: &str = "#d8c9a3";
const RAIN: &str = "#6d9ab8";
const OURS: Stroke = Stroke("#0b4f8a", "4", "none");
const SLIP: Stroke = Stroke("#c8500a", "2.5", "9 4");
const LEFT_OVER: Stroke = Stroke("#5f594a", "2", "2 3");

/// Colour, width and dashes.
#[derive(Clone, Copy)]
struct Stroke(&'static str, &'static str, &'static str);

/// What the sheet shows: a number for each day, and words.
pub struct Sheet<'a> {
    pub days: &'a [Day],
    pub ours: &'a [usize],
    pub slip: &'a [usize],
    pub title: &'a str,
    pub subtitle: &'a str,
    /// the walk's length, the slip, ours
    pub legend: [&'a str; 3],
    pub caption: [String; 3],
}

/// The longest walk that the paper has room for.
pub const MOST: usize = TOP * 1000;

struct Paper(String);

/// A whole number with its thousands parted.
pub fn parted(n: usize) -> String {
    let digits = n.to_string();
    let mut out = String::new();
    for (i, digit) in digits.chars().enumerate() {
        if i > 0 && (digits.len() - i) % 3 == 0 {
            out.push(',');
        }
        out.push(digit);
    }
    out
}

pub fn draw(sheet: &Sheet) -> String {
    let mut paper = Paper(String::new());
    paper.open(sheet);
    paper.grid(LEFT + DAY * sheet.days.len());
    paper.months();
    paper.scales();
    paper.rain(sheet.days);
    let left: Vec<usize> = sheet.days.iter().map(|d| d.left).collect();
    paper.line(&left, LEFT_OVER);
    paper.line(sheet.slip, SLIP);
    paper.line(sheet.ours, OURS);
    paper.dots(sheet.days, sheet.ours);
    paper.ends(sheet);
    paper.legend(&sheet.legend);
    paper.words(sheet);
    paper.put("</svg>");
    paper.0
}

/// Where so many samples are drawn, in pixels with one decimal.
fn height(samples: usize) -> String {
    let thousandths = ZERO * 1000 - THOUSAND * samples;
    format!("{}.{}", thousandths / 1000, thousandths % 1000 / 100)
}

impl Paper {
    fn put(&mut self, element: &str) {
        self.0.push_str(element);
        self.0.push('\n');
    }

    fn text(&mut self, x: usize, y: usize, style: &str, words: &str) {
        self.put(&format!(r#"<text x="{x}" y="{y}" {style}>{words}</text>"#));
    }

    fn path(&mut self, d: &str, Stroke(colour, width, dashes): Stroke) {
        self.put(&format!(
            r#"<path d="{d}" fill="none" stroke="{colour}" stroke-width="{width}" stroke-dasharray="{dashes}"/>"#
        ));
    }

    fn open(&mut self, sheet: &Sheet) {
        self.put(&format!(
            r#"<svg xmlns="http://www.w3.org/2000/svg" viewBox="0 0 {WIDTH} {HEIGHT}" width="{WIDTH}" height="{HEIGHT}" font-family="sans-serif" fill="{INK}" role="img">"#
        ));
        self.put(&format!("<title>{}</title>", sheet.title));
        self.put(&format!("<desc>{}</desc>", sheet.caption.join(" ")));
        self.put(&format!(
            r#"<rect width="{WIDTH}" height="{HEIGHT}" fill="{PAPER}"/>"#
        ));
    }

    fn grid(&mut self, right: usize) {
        let (mut fine, mut bold) = (String::new(), String::new());
        for (base, step, lines, every) in [
            (ZERO, 5 * THOUSAND, TOP / 5, 5),
            (GROUND, 5 * MILLIMETRE, MOST_RAIN / 5, 2),
        ] {
            for i in 0..=lines {
                let d = if i % every == 0 { &mut bold } else { &mut fine };
                let _ = write!(d, "M{LEFT} {}H{right}", base - i * step);
            }
        }
        let upright = |x: usize| {
            let (top, rain) = (ZERO - TOP * THOUSAND, GROUND - MOST_RAIN * MILLIMETRE);
            format!("M{x} {top}V{ZERO}M{x} {rain}V{GROUND}")
        };
        let mut x = LEFT;
        for month in &MONTHS {
            bold.push_str(&upright(x));
            for day in (5..month.days - 2).step_by(5) {
                fine.push_str(&upright(x + day * DAY));
            }
            x += month.days * DAY;
        }
        bold.push_str(&upright(x));
        self.path(&fine, Stroke(FINE, "1", "none"));
        self.path(&bold, Stroke(BOLD, "1", "none"));
    }

    fn months(&mut self) {
        let mut x = LEFT;
        for month in &MONTHS {
            let middle = x + month.days * DAY / 2;
            let style = r#"font-size="15" text-anchor="middle""#;
            self.text(middle, GROUND + 21, style, month.name);
            x += month.days * DAY;
        }
    }

    fn scales(&mut self) {
        let number = r#"font-size="15" text-anchor="end""#;
        for thousands in (0..=TOP).step_by(25) {
            let y = ZERO - thousands * THOUSAND + 5;
            self.text(LEFT - 10, y, number, &parted(thousands * 1000));
        }
        for millimetres in (0..=MOST_RAIN).step_by(10) {
            let y = GROUND - millimetres * MILLIMETRE + 5;
            self.text(LEFT - 10, y, number, &millimetres.to_string());
        }
        let axis = r#"font-size="15" font-style="italic""#;
        let samples = "samples that differ (linear)";
        self.text(LEFT, ZERO - TOP * THOUSAND - 9, axis, samples);
        let rain = format!("rain on each day, in mm; rain and cuts are made up, from seed {SEED}");
        self.text(LEFT, GROUND - MOST_RAIN * MILLIMETRE - 9, axis, &rain);
    }

    fn rain(&mut self, days: &[Day]) {
        let mut bars = String::new();
        for (i, day) in days.iter().enumerate().filter(|(_, day)| day.rain > 0) {
            let tenths = MILLIMETRE * day.rain as usize;
            let x = LEFT + i * DAY;
            let _ = write!(
                bars,
                "M{x}.5 {GROUND}v-{}.{}h2V{GROUND}z",
                tenths / 10,
                tenths % 10
            );
        }
        self.put(&format!(r#"<path d="{bars}" fill="{RAIN}"/>"#));
    }

    /// A step for each day.
    fn line(&mut self, samples: &[usize], stroke: Stroke) {
        let mut d = String::new();
        for (i, n) in samples.iter().enumerate() {
            let x = LEFT + i * DAY;
            if i == 0 {
                let _ = write!(d, "M{x} {}", height(*n));
            } else if samples[i - 1] != *n {
                let _ = write!(d, "H{x}V{}", height(*n));
            }
        }
        let _ = write!(d, "H{}", LEFT + samples.len() * DAY);
        self.path(&d, stroke);
    }

    fn dots(&mut self, days: &[Day], samples: &[usize]) {
        self.put(&format!(
            r#"<g fill="{}" stroke="{PAPER}" stroke-width="0.7">"#,
            OURS.0
        ));
        for (i, day) in days.iter().enumerate() {
            if day.cut.is_some() {
                let (x, y) = (LEFT + i * DAY + 1, height(samples[i]));
                self.put(&format!(r#"<circle cx="{x}.5" cy="{y}" r="4.2"/>"#));
            }
        }
        self.put("</g>");
    }

    /// The slip's first number and its last.
    fn ends(&mut self, sheet: &Sheet) {
        let first = sheet.slip.iter().position(|n| *n > 0);
        let (Some(first), Some(last)) = (first, sheet.slip.last()) else {
            return;
        };
        let below = |n: usize| ZERO - n * THOUSAND / 1000 + 23;
        let colour = format!(r#"font-size="15" fill="{}""#, SLIP.0);
        let words = format!("{} after the first wet day", parted(sheet.slip[first]));
        self.text(
            LEFT + first * DAY + 9,
            below(sheet.slip[first]),
            &colour,
            &words,
        );
        let words = format!("{} on the last day", parted(*last));
        let right = LEFT + sheet.slip.len() * DAY - 6;
        self.text(
            right,
            below(*last),
            &format!(r#"{colour} text-anchor="end""#),
            &words,
        );
    }

    fn legend(&mut self, words: &[&str; 3]) {
        let (x, y) = (LEFT + 138, ZERO - 178);
        self.put(&format!(
            r#"<rect x="{}" y="{}" width="800" height="104" rx="4" fill="{PAPER}" stroke="{BOLD}"/>"#,
            x - 18,
            y - 28
        ));
        for (i, (words, stroke)) in words.iter().zip([LEFT_OVER, SLIP, OURS]).enumerate() {
            let y = y + i * 30;
            self.path(&format!("M{x} {}h54", y - 5), stroke);
            self.text(x + 70, y, r#"font-size="16""#, words);
        }
        self.put(&format!(
            r#"<circle cx="{}" cy="{}" r="4.2" fill="{}" stroke="{PAPER}" stroke-width="0.7"/>"#,
            x + 27,
            y + 55,
            OURS.0
        ));
    }

    fn words(&mut self, sheet: &Sheet) {
        self.text(
            LEFT,
            34,
            r#"font-size="23" font-weight="bold""#,
            &sheet.title,
        );
        self.text(LEFT, 60, r#"font-size="16""#, sheet.subtitle);
        for (i, words) in sheet.caption.iter().enumerate() {
            self.text(LEFT, GROUND + 52 + 21 * i, r#"font-size="15""#, words);
        }
    }
}
