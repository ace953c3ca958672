//! The bars as a chart in SVG.

use crate::bars::Bar;
use crate::report;
use std::fmt::Write;

/// The picture, and in it the area of the bars.
const WIDTH: f64 = 800.0;
const HEIGHT: f64 = 450.0;
const LEFT: f64 = 100.0;
const RIGHT: f64 = 780.0;
const TOP: f64 = 70.0;
const BOTTOM: f64 = 385.0;

/// Characters that mean something in SVG are written by their names.
fn escaped(text: &str) -> String {
    text.replace('&', "&amp;").replace('<', "&lt;").replace('>', "&gt;").replace('"', "&quot;")
}

/// A number with commas between its thousands.
fn grouped(number: u64) -> String {
    let digits = number.to_string();
    let mut text = String::new();
    for (place, digit) in digits.chars().enumerate() {
        if place > 0 && (digits.len() - place) % 3 == 0 {
            text.push(',');
        }
        text.push(digit);
    }
    text
}

/// The distance between two lines of the scale: 1, 2 or 5 times a power of ten, with at most 5 lines above
/// the base.
fn step(highest: u64) -> u64 {
    let mut power = 1;
    loop {
        for times in [1, 2, 5] {
            if highest <= 5 * times * power {
                return times * power;
            }
        }
        power *= 10;
    }
}

fn text(svg: &mut String, (x, y): (f64, f64), style: &str, words: &str) {
    let _ = writeln!(svg, r#"<text x="{x:.1}" y="{y:.1}" {style}>{}</text>"#, escaped(words));
}

/// The lines and numbers of the scale, up to `top`.
fn scale(svg: &mut String, step: u64, top: u64) {
    for value in (0..=top / step).map(|i| i * step) {
        let y = BOTTOM - (BOTTOM - TOP) * value as f64 / top as f64;
        let colour = if value == 0 { "#333" } else { "#ddd" };
        let _ =
            writeln!(svg, r#"<line x1="{LEFT}" y1="{y:.1}" x2="{RIGHT}" y2="{y:.1}" stroke="{colour}"/>"#);
        text(svg, (LEFT - 8.0, y + 4.0), r#"text-anchor="end""#, &grouped(value));
    }
}

/// A bar, its label where it gets one, and its numbers for those who point at it.
fn bar(svg: &mut String, bar: &Bar, x: f64, width: f64, height: f64, labelled: bool) {
    let (at, wide, y) = (x + width * 0.1, width * 0.8, BOTTOM - height);
    let _ = write!(
        svg,
        r##"<rect x="{at:.2}" y="{y:.2}" width="{wide:.2}" height="{height:.2}" fill="#2f6f9f">"##
    );
    let _ = writeln!(svg, "<title>count {}, classes {}</title></rect>", bar.label(), grouped(bar.classes));
    if labelled {
        text(svg, (x + width / 2.0, BOTTOM + 18.0), r#"text-anchor="middle""#, &bar.label());
    }
}

/// The whole chart.
pub fn chart(name: &str, headline: &str, bars: &[Bar]) -> String {
    let mut svg = format!(
        "<svg xmlns=\"http://www.w3.org/2000/svg\" viewBox=\"0 0 {WIDTH} {HEIGHT}\" width=\"{WIDTH}\" \
         height=\"{HEIGHT}\" font-family=\"sans-serif\" font-size=\"12\" fill=\"#333\">\n\
         <rect width=\"100%\" height=\"100%\" fill=\"white\"/>\n"
    );
    text(
        &mut svg,
        (LEFT, 28.0),
        r#"font-size="16" font-weight="bold""#,
        &format!("Classes by count: {}", report::shortened(name)),
    );
    text(&mut svg, (LEFT, 48.0), r##"fill="#666""##, headline);
    let highest = bars.iter().map(|bar| bar.classes).max().unwrap_or(0).max(1);
    let step = step(highest);
    let top = highest.div_ceil(step) * step;
    scale(&mut svg, step, top);
    // Few bars are not made as wide as the picture.
    let width = (RIGHT - LEFT) / bars.len().max(8) as f64;
    let widest = bars.iter().map(|bar| bar.label().len()).max().unwrap_or(1);
    // Labels stand side by side: 7 for a digit, and a gap.
    let every = ((7 * widest + 12) as f64 / width).ceil().max(1.0) as usize;
    for (place, one) in bars.iter().enumerate() {
        let height = (BOTTOM - TOP) * one.classes as f64 / top as f64;
        bar(&mut svg, one, LEFT + width * place as f64, width, height, place % every == 0);
    }
    text(&mut svg, ((LEFT + RIGHT) / 2.0, HEIGHT - 20.0), r#"text-anchor="middle""#, "count");
    let turned = format!(r#"text-anchor="middle" transform="rotate(-90 20 {:.1})""#, (TOP + BOTTOM) / 2.0);
    text(&mut svg, (20.0, (TOP + BOTTOM) / 2.0), &turned, "classes");
    svg + "</svg>\n"
}
