//! The report as a picture: peaks in and out with the target, and the gain.

use std::fmt::Write as _;

use super::{left_out, peak, Report};
use crate::input::Highest;
use crate::series::Series;
use crate::words::{clock, db, grouped, level};

const WIDTH: f64 = 1200.0;
const HEIGHT: f64 = 680.0;
const LEFT: f64 = 72.0;
const RIGHT: f64 = 1164.0;
/// The lowest level drawn.
const QUIET: f64 = -48.0;

const STYLE: &str = "\
text{font-family:system-ui,'DejaVu Sans',sans-serif;font-size:13px;fill:#3c4650}\
.title{font-size:20px;font-weight:600;fill:#1d252c}\
.end{text-anchor:end}.middle{text-anchor:middle}\
.grid{stroke:#e3e8ec;fill:none}.frame{stroke:#9aa5ae;fill:none}\
.in{fill:#c3ccd6}.out{fill:#2a7ab0}.gain{fill:#e39a2d}\
.target{stroke:#c22f2f;stroke-width:1.5;stroke-dasharray:7 4}.mark{stroke:#1d252c;stroke-width:1.5;fill:#fff}\
.told,.high{font-weight:600;paint-order:stroke;stroke:#fff;stroke-width:3px}.told{fill:#c22f2f}.high{fill:#1d252c}";

/// A stretch of the picture with an axis in dB.
struct Panel {
    top: f64,
    bottom: f64,
    high: f64,
    low: f64,
    step: f64,
    name: &'static str,
}

impl Panel {
    fn y(&self, db: f64) -> f64 {
        let part = (self.high - db.clamp(self.low, self.high)) / (self.high - self.low);
        self.top + part * (self.bottom - self.top)
    }

    /// Grid, labels and frame.
    fn axis(&self, svg: &mut String) {
        let mut at = self.high;
        while at >= self.low - 1e-9 {
            let y = self.y(at);
            let label = format!("{at}").replace('-', "−");
            let _ = writeln!(
                svg,
                "<path class='grid' d='M{LEFT} {y:.1}H{RIGHT}'/>\
                 <text class='end' x='{:.1}' y='{:.1}'>{label}</text>",
                LEFT - 9.0,
                y + 4.5
            );
            at -= self.step;
        }
        let middle = (self.top + self.bottom) / 2.0;
        let _ = writeln!(
            svg,
            "<text class='middle' transform='translate(22 {middle:.1}) rotate(-90)'>{}</text>",
            self.name
        );
    }

    fn frame(&self, svg: &mut String) {
        let (w, h) = (RIGHT - LEFT, self.bottom - self.top);
        let _ = writeln!(
            svg,
            "<rect class='frame' x='{LEFT}' y='{}' width='{w}' height='{h}'/>",
            self.top
        );
    }

    /// The area between a series and the level `base`, in steps.
    fn area(&self, svg: &mut String, class: &str, series: &Series, base: f64, frames: f64) {
        let base = self.y(base);
        let _ = write!(svg, "<path class='{class}' d='M{LEFT} {base:.1}");
        let mut last = f64::NAN;
        for (frame, value) in series.points() {
            let y = self.y(db(value).unwrap_or(f64::MIN));
            if y != last {
                let x = LEFT + frame as f64 / frames * (RIGHT - LEFT);
                let _ = write!(svg, "H{x:.1}V{y:.1}");
                last = y;
            }
        }
        let _ = writeln!(svg, "H{RIGHT}V{base:.1}Z'/>");
    }
}

/// The picture.
#[must_use]
pub fn svg(report: &Report) -> String {
    let outcome = &report.outcome;
    let frames = report.frames().max(1) as f64;
    let loudest = db(outcome.input.counted.higher());
    let least = outcome.gains.least().and_then(|l| db(l.gain));
    let levels = Panel {
        top: 92.0,
        bottom: 420.0,
        high: (loudest.unwrap_or(0.0).clamp(0.0, 60.0) / 6.0).ceil() * 6.0,
        low: QUIET,
        step: 6.0,
        name: "peak, dBFS",
    };
    let (low, step) = depth(least.unwrap_or(0.0));
    let gain = Panel {
        top: 452.0,
        bottom: 612.0,
        high: 0.0,
        low,
        step,
        name: "gain, dB",
    };
    let mut svg = format!(
        "<svg xmlns='http://www.w3.org/2000/svg' viewBox='0 0 {WIDTH} {HEIGHT}' \
         width='{WIDTH}' height='{HEIGHT}'>\n<style>{STYLE}</style>\n\
         <rect width='{WIDTH}' height='{HEIGHT}' fill='#fff'/>\n"
    );
    headings(&mut svg, report);
    times(&mut svg, report.seconds(), &[&levels, &gain]);
    levels.axis(&mut svg);
    gain.axis(&mut svg);
    levels.area(&mut svg, "in", &outcome.input.envelope, QUIET, frames);
    levels.area(&mut svg, "out", &outcome.output.envelope, QUIET, frames);
    gain.area(&mut svg, "gain", outcome.gains.curve(), 0.0, frames);
    target(&mut svg, report.target_db(), &levels);
    levels.frame(&mut svg);
    gain.frame(&mut svg);
    if let Some(peak) = outcome.highest {
        mark(&mut svg, report, &peak, &levels);
    }
    svg.push_str("</svg>\n");
    svg
}

/// The target's line, named at its right end.
fn target(svg: &mut String, db: f64, levels: &Panel) {
    let y = levels.y(db);
    let _ = write!(
        svg,
        "<path class='target' d='M{LEFT} {y:.1}H{RIGHT}'/>\n\
         <text class='told end' x='{}' y='{:.1}'>target {db:+.2} dBFS</text>\n",
        RIGHT - 8.0,
        y - 6.0
    );
}

/// A ring where and as high as the highest peak in was: the area of what went in lies
/// below it, and between samples a few frames after it, where it was heard. It is named
/// toward the middle, clear of the target's name.
fn mark(svg: &mut String, report: &Report, peak: &Highest, levels: &Panel) {
    let (at, frames) = (peak.at(report.frames()), report.frames().max(1) as f64);
    let x = LEFT + at / frames * (RIGHT - LEFT);
    let y = levels.y(db(peak.height).unwrap_or(f64::MIN));
    let (class, beside) = if x < (LEFT + RIGHT) / 2.0 {
        ("high", x + 8.0)
    } else {
        ("high end", x.min(RIGHT - 160.0) - 8.0)
    };
    let _ = write!(
        svg,
        "<circle class='mark' cx='{x:.1}' cy='{y:.1}' r='4'><title>{}</title></circle>\n\
         <text class='{class}' x='{beside:.1}' y='{:.1}'>peak in {} dBFS, channel {}, {}</text>\n",
        peak::words(report, peak),
        y - 8.0,
        level(peak.height),
        peak.place.channel() + 1,
        peak::seat(peak.place)
    );
}

/// The gain axis: its low end and its step.
fn depth(least: f64) -> (f64, f64) {
    let step = match -least {
        d if d <= 5.0 => 1.0,
        d if d <= 15.0 => 3.0,
        d if d <= 30.0 => 6.0,
        _ => 12.0,
    };
    let steps = (-least.max(-120.0) / step).ceil().max(2.0);
    (-steps * step, step)
}

/// Title, what the file is, and what the colours mean.
fn headings(svg: &mut String, report: &Report) {
    let name = report.input.file_name().unwrap_or_default();
    let least = match report.outcome.gains.least() {
        Some(l) => {
            let at = clock(l.frame, report.format.rate);
            format!("least gain {} dB at {at}", level(l.gain))
        }
        None => "unity throughout".into(),
    };
    let _ = write!(
        svg,
        "<text class='title' x='{LEFT}' y='38'>{}</text>\n\
         <text x='{LEFT}' y='66'>{}, {}, {} Hz, {}; {least}</text>\n",
        escaped(&name.to_string_lossy()),
        report.format.container(),
        report.format.encoding.name(),
        grouped(report.format.rate.into()),
        clock(report.frames(), report.format.rate)
    );
    left_out_line(svg, report);
    for (i, (class, name)) in [("in", "peak in"), ("out", "peak out"), ("gain", "gain")]
        .iter()
        .enumerate()
    {
        let x = RIGHT - 270.0 + 95.0 * i as f64;
        let _ = writeln!(
            svg,
            "<rect class='{class}' x='{x}' y='55' width='14' height='14' rx='2'/>\
             <text x='{}' y='66'>{name}</text>",
            x + 20.0
        );
    }
}

/// Which channels the panels do not show, since no target holds for them.
fn left_out_line(svg: &mut String, report: &Report) {
    if report.left_out.is_empty() {
        return;
    }
    let most = report
        .left_out
        .iter()
        .filter_map(|c| left_out::told_above(report, *c))
        .reduce(f64::max);
    let above = most.map(|db| format!("; up to {db:.2} dB above the target"));
    let _ = writeln!(
        svg,
        "<text x='{LEFT}' y='85'>left out, peaks not drawn: {}{}</text>",
        left_out::names(report),
        above.unwrap_or_default()
    );
}

/// Vertical lines through the panels, and the time below them.
fn times(svg: &mut String, seconds: f64, panels: &[&Panel]) {
    let step = tick(seconds);
    let bottom = panels.iter().fold(0.0_f64, |b, p| b.max(p.bottom));
    let mut i = 0.0;
    while i * step <= seconds {
        let x = LEFT + i * step / seconds.max(1e-9) * (RIGHT - LEFT);
        for p in panels {
            let _ = write!(
                svg,
                "<path class='grid' d='M{x:.1} {}V{}'/>",
                p.top, p.bottom
            );
        }
        let label = time(i * step, step);
        let _ = writeln!(
            svg,
            "<text class='middle' x='{x:.1}' y='{:.1}'>{label}</text>",
            bottom + 20.0
        );
        i += 1.0;
    }
    let _ = writeln!(
        svg,
        "<text class='middle' x='{:.1}' y='{:.1}'>time{}</text>",
        (LEFT + RIGHT) / 2.0,
        bottom + 46.0,
        if step < 1.0 { ", s" } else { "" }
    );
}

/// A round step of time that makes at most a dozen labels.
fn tick(seconds: f64) -> f64 {
    let fine = (-6..0).flat_map(|p| [1.0, 2.0, 5.0].map(|d| d * 10_f64.powi(p)));
    let coarse = [
        1.0, 2.0, 5.0, 10.0, 15.0, 30.0, 60.0, 120.0, 300.0, 600.0, 900.0, 1800.0,
    ];
    let hours = (0..20).map(|p| 3600.0 * f64::from(1 << p));
    fine.chain(coarse)
        .chain(hours)
        .find(|step| seconds / step <= 12.0)
        .unwrap_or(seconds)
}

/// A time with as many digits as its step needs.
fn time(t: f64, step: f64) -> String {
    if step < 1.0 {
        let digits = (-step.log10()).ceil() as usize;
        return format!("{t:.digits$}");
    }
    let s = t.round() as u64;
    match s / 3600 {
        0 => format!("{}:{:02}", s / 60, s % 60),
        h => format!("{h}:{:02}:{:02}", s / 60 % 60, s % 60),
    }
}

fn escaped(text: &str) -> String {
    text.chars()
        .filter(|c| !c.is_control())
        .map(|c| match c {
            '&' => "&amp;".into(),
            '<' => "&lt;".into(),
            '>' => "&gt;".into(),
            c => c.to_string(),
        })
        .collect()
}

#[cfg(test)]
mod tests {
    use super::*;

    #[test]
    fn axes_have_round_steps() {
        assert_eq!(tick(20.0), 2.0);
        assert_eq!(tick(0.01), 0.001);
        assert_eq!(tick(3600.0), 300.0);
        assert_eq!(time(4.0, 2.0), "0:04");
        assert_eq!(time(3725.0, 300.0), "1:02:05");
        assert_eq!(time(0.002, 0.001), "0.002");
        assert_eq!(depth(0.0), (-2.0, 1.0));
        assert_eq!(depth(-7.0), (-9.0, 3.0));
        assert_eq!(escaped("a<b & c"), "a&lt;b &amp; c");
    }
}
