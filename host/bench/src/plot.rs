//! The figures as a plot.

use crate::svg::{Anchor, Chart, Series, Svg};
use crate::timing::Timing;
use crate::{Run, LARGEST, LIMIT, LINES, SCALES};

const BOLD: &str = "font-size='13' font-weight='bold'";
const GRID: &str = "stroke='#ddd'";
const UNDER: &str = "#5b8cc4";
const OVER: &str = "#d9773b";

/// The bars: where their axis starts and ends, the height of a row, the first row, and the greatest ratio that is drawn whole.
const AXIS_X: f64 = 250.0;
const AXIS_END: f64 = 560.0;
const ROW: f64 = 16.5;
const TOP: f64 = 62.0;
const MOST: f64 = 3.0;

fn bar_x(ratio: f64) -> f64 {
    AXIS_X + (AXIS_END - AXIS_X) * ratio.min(MOST) / MOST
}

/// A bar for each kind of call; one that is longer than the axis is cut.
fn draw_bars(svg: &mut Svg, timings: &[Timing]) {
    let bottom = TOP + ROW * timings.len() as f64;
    let title = format!(
        "Library's time over what it is held to, count {}, {} vCPUs",
        LARGEST.count, LARGEST.vcpus
    );
    svg.text((20.0, 24.0), Anchor::Start, BOLD, &title);
    let note = "held to: one pass over the state + plain model's call; make, save, restore: plain model's call alone";
    svg.text((20.0, 41.0), Anchor::Start, "fill='#555'", note);
    for tick in 0..=(2.0 * MOST) as usize {
        let ratio = tick as f64 / 2.0;
        svg.line((bar_x(ratio), TOP), (bar_x(ratio), bottom), GRID);
        svg.text(
            (bar_x(ratio), bottom + 15.0),
            Anchor::Middle,
            "",
            &format!("{ratio}"),
        );
    }
    for (k, timing) in timings.iter().enumerate() {
        let (y, ratio) = (TOP + ROW * k as f64, timing.ratio());
        let (fill, end) = (if ratio > LIMIT { OVER } else { UNDER }, bar_x(ratio));
        svg.text((AXIS_X - 7.0, y + 12.0), Anchor::End, "", timing.case.name);
        svg.rect((AXIS_X, y + 2.5), (end - AXIS_X, ROW - 5.0), fill);
        if ratio > MOST {
            let style = "stroke='white' stroke-width='3'";
            svg.line((end - 12.0, y + ROW), (end - 6.0, y), style);
        }
        svg.text(
            (AXIS_END + 42.0, y + 12.0),
            Anchor::End,
            "",
            &format!("{ratio:.2}"),
        );
    }
    let style = "stroke='#b00020' stroke-width='1.5' stroke-dasharray='4 3'";
    svg.line((bar_x(LIMIT), TOP - 6.0), (bar_x(LIMIT), bottom), style);
}

/// A kind of call over the sizes of a device with so many vCPUs, in nanoseconds over `unit`.
fn by_count(run: &Run, kind: &str, name: String, vcpus: usize, unit: f64) -> Series {
    let rows = SCALES.iter().zip(&run.by_scale);
    let rows = rows.filter(|(scale, _)| scale.vcpus == vcpus);
    let of_kind = |row: &'_ [Timing]| row.iter().position(|t| t.case.name == kind);
    let timings: Vec<&Timing> = rows.filter_map(|(_, row)| row.get(of_kind(row)?)).collect();
    Series {
        name,
        library: timings.iter().map(|t| t.library_ns() / unit).collect(),
        held_to: timings.iter().map(|t| t.held_to_ns() / unit).collect(),
    }
}

fn counts() -> Vec<String> {
    let eight = SCALES.iter().filter(|scale| scale.vcpus == LARGEST.vcpus);
    eight.map(|scale| scale.count.to_string()).collect()
}

fn count_chart(run: &Run) -> Chart {
    let of = |kind: &str, name: &str| by_count(run, kind, name.to_string(), LARGEST.vcpus, 1.0);
    Chart {
        title: "ns of a call, 8 vCPUs",
        x_title: "interrupt count",
        x_labels: counts(),
        held_to: "dashed: pass + plain model",
        logarithmic: false,
        series: vec![
            of("signal query, one pending", "signal query, one pending"),
            of("ICC IAR1 read, EOIR1 write", "IAR1 and EOIR1, a call"),
            of("GICD ISENABLER read", "GICD ISENABLER read"),
            of("set lines (group 7)", "set lines (group 7)"),
        ],
    }
}

fn pending_chart(run: &Run) -> Chart {
    let of = |kind: usize, name: &str| Series {
        name: name.to_string(),
        library: run
            .by_pending
            .iter()
            .map(|row| row[kind].library_ns())
            .collect(),
        held_to: run
            .by_pending
            .iter()
            .map(|row| row[kind].held_to_ns())
            .collect(),
    };
    Chart {
        title: "ns of a call, count 1024, 8 vCPUs (logarithmic)",
        x_title: "level interrupts pending, all of one priority",
        x_labels: LINES.iter().map(ToString::to_string).collect(),
        held_to: "dashed: pass + plain model",
        logarithmic: true,
        series: vec![of(0, "signal query"), of(2, "IAR1 and EOIR1, a call")],
    }
}

fn record_chart(run: &Run) -> Chart {
    let of = |kind: &str, vcpus| {
        let name = format!("{kind}, {vcpus} vCPU{}", if vcpus == 1 { "" } else { "s" });
        by_count(run, kind, name, vcpus, 1000.0)
    };
    Chart {
        title: "microseconds of a save and of a restore (logarithmic)",
        x_title: "interrupt count",
        x_labels: counts(),
        held_to: "dashed: plain model",
        logarithmic: true,
        series: vec![
            of("save", 1),
            of("save", 8),
            of("restore", 1),
            of("restore", 8),
        ],
    }
}

/// The plot's text.
pub fn svg(run: &Run) -> String {
    let timings = &run.by_scale[SCALES.len() - 1];
    let height = TOP + ROW * timings.len() as f64 + 36.0;
    let mut svg = Svg::new(1275.0, height);
    draw_bars(&mut svg, timings);
    let charts = [count_chart(run), pending_chart(run), record_chart(run)];
    for (k, chart) in charts.iter().enumerate() {
        chart.draw(&mut svg, (680.0, 40.0 + 285.0 * k as f64));
    }
    svg.finish()
}
