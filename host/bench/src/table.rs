//! The figures as tables, ratios first.

use crate::states::Scale;
use crate::timing::Timing;
use crate::{Run, LARGEST, LIMIT, LINES, SCALES};

/// A ratio, with a star where it is over the limit.
fn starred(ratio: f64) -> String {
    let star = if ratio > LIMIT { '*' } else { ' ' };
    format!("{ratio:.2}{star}")
}

fn scales() -> String {
    let name = |s: &Scale| format!("{:>9}", format!("{}/{}", s.count, s.vcpus));
    SCALES.iter().map(name).collect()
}

/// A row for each kind of call, a column for each scale.
fn print_by_scale(run: &Run, title: &str, cell: impl Fn(&Timing) -> String) {
    println!("\n{title}");
    println!("{:<34}{}", "count/vCPUs", scales());
    for (kind, first) in run.by_scale[0].iter().enumerate() {
        let cells = run.by_scale.iter().map(|row| cell(&row[kind]));
        let cells: String = cells.map(|text| format!("{text:>9}")).collect();
        println!("{:<34}{cells}", first.case.name);
    }
}

/// The bytes of the record of a device in use, and the rate at which they are saved and restored.
fn print_record(run: &Run) {
    println!("\nsave and restore: bytes of the record, MB/s of it for library and plain model");
    println!("{:<34}{}", "count/vCPUs", scales());
    for name in ["save", "restore"] {
        let of = |row: &[Timing], cell: &dyn Fn(&Timing, f64) -> f64| {
            let of_name = |name| row.iter().find(|t| t.case.name == name);
            let bytes = of_name("restore").map_or(0, |t| t.case.lent().len());
            let timing = of_name(name).expect("a kind of call");
            format!("{:>9.0}", cell(timing, bytes as f64))
        };
        let row = |cell: &dyn Fn(&Timing, f64) -> f64| -> String {
            run.by_scale.iter().map(|row| of(row, cell)).collect()
        };
        println!("{:<34}{}", format!("{name}, bytes"), row(&|_, bytes| bytes));
        let library = row(&|t, bytes| 1000.0 * bytes / t.library_ns());
        println!("{:<34}{library}", format!("{name}, library MB/s"));
        let model = row(&|t, bytes| 1000.0 * bytes / t.model_ns());
        println!("{:<34}{model}", format!("{name}, plain model MB/s"));
    }
}

fn print_by_pending(run: &Run) {
    println!(
        "\nlevel interrupts pending, count {}, {} vCPUs",
        LARGEST.count, LARGEST.vcpus
    );
    let heads: String = LINES.iter().map(|n| format!("{n:>9}")).collect();
    println!("{:<34}{heads}", "pending");
    for (kind, first) in run.by_pending[0].iter().enumerate() {
        let row = |what: &str, cell: &dyn Fn(&Timing) -> String| {
            let cells = run.by_pending.iter().map(|row| cell(&row[kind]));
            let cells: String = cells.map(|text| format!("{text:>9}")).collect();
            println!("{:<34}{cells}", format!("{}{what}", first.case.name));
        };
        row(": ratio", &|t| starred(t.ratio()));
        row(", library", &|t| format!("{:.0}", t.library_ns()));
        row(", model", &|t| format!("{:.1}", t.model_ns()));
    }
}

/// Prints every figure of a run.
pub fn print(run: &Run) {
    let ratio = "ratio: library / (one pass over the state + plain model's call); of make, save and restore library / plain model's call; * is over 2";
    print_by_scale(run, ratio, |t| starred(t.ratio()));
    print_by_pending(run);
    print_by_scale(run, "library, ns of a call", |t| {
        format!("{:.1}", t.library_ns())
    });
    print_by_scale(run, "plain model, ns of a call", |t| {
        format!("{:.1}", t.model_ns())
    });
    print_record(run);
    let all = || run.by_scale.iter().flatten();
    let pass = all().map(Timing::pass_ns).fold(f64::INFINITY, f64::min);
    let highest = all().map(Timing::pass_ns).fold(0.0, f64::max);
    println!(
        "\none pass over the state's 7,040 bytes: {pass:.1} ns, in the slowest case {highest:.1}"
    );
    let over: Vec<_> = all().filter(|t| t.ratio() > LIMIT).collect();
    println!("over {LIMIT}: {} of {}", over.len(), all().count());
}
