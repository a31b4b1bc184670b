//! The figures as text, as CSV and as JSON.

use crate::load::{Counted, Figures};
use crate::options::{Form, Mix, Options};
use crate::wire::{Kind, KINDS};
use std::fmt::Write;

/// How wide the longest bar is.
const WIDTH: u64 = 50;

/// What stands before the first figures, and is there before they are measured.
pub fn head(options: &Options) -> &'static str {
    match options.form {
        Form::Csv => "mix,kind,connections,depth,seconds,requests,per_second,p50_us,p99_us,p999_us,max_us,errors,newest\n",
        Form::Json | Form::Text => "",
    }
}

/// What was asked, of whom.
fn load_of(options: &Options) -> String {
    let Options { url, connections, depth, keys, items, sizes: (least, most), .. } = options;
    let size = if least == most { least.to_string() } else { format!("{least} to {most}") };
    format!("{url}: {connections} connections, {depth} in flight on each; {keys} keys, {items} in a request, values of {size} bytes\n")
}

/// How many requests were not answered well, and of each kind by which cause; nothing where all were.
fn failures(figures: &Figures) -> String {
    let all = figures.all();
    if all.errors.is_empty() {
        return String::new();
    }
    let of_kind = |(kind, counted): (&Kind, &Counted)| -> Vec<String> {
        counted.errors.iter().map(|(name, count)| format!("{count} of {}: {name}", kind.name())).collect()
    };
    let causes: Vec<String> = KINDS.iter().zip(&figures.counted).flat_map(of_kind).collect();
    format!("{} of {} requests failed ({}); the figures are of those answered well\n", all.failed, all.failed + all.times.total(), causes.join(", "))
}

/// The figures of a mix.
pub fn body(options: &Options, figures: &Figures) -> String {
    match options.form {
        Form::Text => failures(figures) + &load_of(options) + &text(figures),
        Form::Csv => rows(figures).iter().map(|(name, counted)| csv(options, figures, name, counted)).collect(),
        Form::Json => json(options, figures),
    }
}

/// The kinds that were asked, and all of them together.
fn rows(figures: &Figures) -> Vec<(&'static str, Counted)> {
    let weights = [figures.mix.put, figures.mix.get, figures.mix.find];
    let counted = KINDS.iter().zip(&figures.counted).zip(weights);
    // A read before a put has no weight, and may have errors.
    let asked = counted.filter(|((_, counted), weight)| *weight > 0 || !counted.errors.is_empty()).map(|(asked, _)| asked);
    let mut rows: Vec<(&'static str, Counted)> = asked.map(|(kind, counted)| (kind.name(), counted.clone())).collect();
    if rows.len() != 1 {
        rows.push(("all", figures.all()));
    }
    rows
}

fn per_second(figures: &Figures, counted: &Counted) -> f64 {
    if figures.seconds > 0.0 {
        counted.times.total() as f64 / figures.seconds
    } else {
        0.0
    }
}

fn microseconds(nanoseconds: u64) -> String {
    format!("{:.1}", nanoseconds as f64 / 1000.0)
}

/// p50, p99, p99.9 and the greatest time.
fn times(counted: &Counted) -> [String; 4] {
    let times = &counted.times;
    [times.at(500), times.at(990), times.at(999), times.greatest()].map(microseconds)
}

pub fn mix_name(mix: Mix) -> String {
    let parts = [("put", mix.put), ("get", mix.get), ("find", mix.find)];
    let asked: Vec<_> = parts.iter().filter(|(_, weight)| *weight > 0).collect();
    match asked[..] {
        [(name, _)] => (*name).into(),
        _ => asked.iter().map(|(name, weight)| format!("{name}={weight}")).collect::<Vec<_>>().join(" "),
    }
}

fn text(figures: &Figures) -> String {
    let mut out = format!("{}, {:.1} s\n", mix_name(figures.mix), figures.seconds);
    let _ = writeln!(out, "{:<6}{:>12}{:>12}{:>11}{:>11}{:>11}{:>11}", "", "answered", "per second", "p50 us", "p99 us", "p99.9 us", "max us");
    for (name, counted) in rows(figures) {
        let [half, most, nearly_all, greatest] = times(&counted);
        let (total, rate) = (counted.times.total(), per_second(figures, &counted));
        let _ = writeln!(out, "{name:<6}{total:>12}{rate:>12.0}{half:>11}{most:>11}{nearly_all:>11}{greatest:>11}");
    }
    let all = figures.all();
    if all.errors.is_empty() {
        out.push_str("errors: none\n");
    }
    if let Some((above, puts)) = figures.newest {
        let _ = writeln!(out, "newest: {above} of {puts} puts stand above all that was done at their keys before they were sent");
    }
    let ranges = all.times.by_powers();
    let most = ranges.iter().map(|(_, _, count)| *count).max().unwrap_or(1);
    for (from, below, count) in ranges {
        let part = count as f64 * 100.0 / all.times.total() as f64;
        // What came at all has a bar.
        let bar = "#".repeat(((count * WIDTH + most - 1) / most) as usize);
        let _ = writeln!(out, "{from:>9} to {below:>8} us{count:>12} {part:>7.3} % {bar}");
    }
    out
}

fn csv(options: &Options, figures: &Figures, name: &str, counted: &Counted) -> String {
    let errors: Vec<String> = counted.errors.iter().map(|(name, count)| format!("{name}: {count}")).collect();
    let (connections, depth, total) = (options.connections, options.depth, counted.times.total());
    // The part of the puts that can be read, of 1; nothing where this is not counted.
    let newest = figures.newest.map_or(String::new(), |(above, puts)| format!("{:.4}", above as f64 / puts.max(1) as f64));
    format!(
        "{},{name},{connections},{depth},{:.3},{total},{:.0},{},{},{newest}\n",
        mix_name(figures.mix),
        figures.seconds,
        per_second(figures, counted),
        times(counted).join(","),
        errors.join("; ")
    )
}

/// One line a mix. No text in it has a sign that JSON writes otherwise.
fn json(options: &Options, figures: &Figures) -> String {
    let newest = figures.newest.map_or(String::new(), |(above, puts)| format!("\"newest\":{{\"puts\":{puts},\"above\":{above}}},"));
    let kinds: Vec<String> = rows(figures).iter().map(|(name, counted)| format!("\"{name}\":{}", json_of(figures, counted))).collect();
    let Options { connections, depth, keys, items, .. } = options;
    format!(
        "{{\"mix\":\"{}\",\"connections\":{connections},\"depth\":{depth},\"keys\":{keys},\"items\":{items},\"seconds\":{:.3},{newest}{}}}\n",
        mix_name(figures.mix),
        figures.seconds,
        kinds.join(",")
    )
}

fn json_of(figures: &Figures, counted: &Counted) -> String {
    let errors: Vec<String> = counted.errors.iter().map(|(name, count)| format!("\"{name}\":{count}")).collect();
    let ranges: Vec<String> = counted.times.by_powers().iter().map(|(from, below, count)| format!("[{from},{below},{count}]")).collect();
    let [half, most, nearly_all, greatest] = times(counted);
    format!(
        "{{\"requests\":{},\"per_second\":{:.0},\"p50_us\":{half},\"p99_us\":{most},\"p999_us\":{nearly_all},\"max_us\":{greatest},\
         \"errors\":{{{}}},\"histogram_us\":[{}]}}",
        counted.times.total(),
        per_second(figures, counted),
        errors.join(","),
        ranges.join(",")
    )
}
