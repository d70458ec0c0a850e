//! The table of a plan.

use super::Plan;
use std::fmt::Write as _;

fn several(count: &str, one: &str, many: &str) -> String {
    format!("{count} {}", if count == "1" { one } else { many })
}

fn widest(a: &str, b: &str) -> usize {
    a.len().max(b.len())
}

/// What a leg reads: each file with its time and the reads that waited for it.
fn read_on(plan: &Plan, leg: usize) -> String {
    let reads = plan.done.iter().filter(|read| read.leg == leg);
    reads.map(|read| format!("{} at {} ({})", read.file, read.time, plan.waited(read.file))).collect::<Vec<_>>().join(", ")
}

pub fn draw(plan: &Plan) -> String {
    let files = several(&plan.done.len().to_string(), "file", "files");
    let mut out = format!("tape {}: {} of {files}, head at {}", plan.tape, several(&plan.reads, "read", "reads"), plan.head);
    if plan.legs.is_empty() {
        out.push_str("\n\nNothing is wanted: the head stays where it is.\n");
        return out;
    }
    let _ = writeln!(out, ", a turn costs {}\n", plan.turn);
    draw_legs(plan, &mut out);
    draw_figures(plan, &mut out);
    let width = widest(&plan.sum, &plan.sum_of_sweep);
    let _ = writeln!(out, "sum of this plan      {:>width$}", plan.sum);
    let _ = writeln!(out, "sum without detours   {:>width$}", plan.sum_of_sweep);
    out
}

fn draw_legs(plan: &Plan, out: &mut String) {
    let place = widest("turns at", &plan.furthest().to_string());
    let clock = widest("sets off", &plan.finish.to_string());
    let mut row = |name: &str, from: &str, turns_at: &str, sets_off: &str, runs_to: &str, ends: &str, reads: &str| {
        let _ = writeln!(out, "{name:>5}  {from:>place$}  {turns_at:>place$}  {sets_off:>clock$}  {runs_to:>place$}  {ends:>clock$}  {reads}");
    };
    row("leg", "from", "turns at", "sets off", "runs to", "ends", "reads: file at time (reads that waited)");
    for (at, leg) in plan.legs.iter().enumerate() {
        let name = if at + 1 == plan.legs.len() { "sweep".to_string() } else { (at + 1).to_string() };
        row(
            &name,
            &leg.comes_from.to_string(),
            &leg.turns_at.to_string(),
            &leg.sets_off.to_string(),
            &leg.runs_to.to_string(),
            &leg.ends_at.to_string(),
            &read_on(plan, at + 1),
        );
    }
}

fn draw_figures(plan: &Plan, out: &mut String) {
    out.push_str(if plan.detours.is_empty() && plan.legs[0].turns_at == plan.head {
        "\nNo detour pays for itself: the head turns where it stands and reads on its way to the right.\n"
    } else if plan.detours.is_empty() {
        "\nNo detour pays for itself: the head goes straight to the left and reads on its way back.\n"
    } else {
        "\nWhat each detour buys: the sum without it less the sum with it.\n"
    });
    for (at, detour) in plan.detours.iter().enumerate() {
        let _ = writeln!(out, "{:>5}  detour {},{} buys {}", at + 1, detour.from, detour.to, detour.buys);
    }
    out.push('\n');
}
