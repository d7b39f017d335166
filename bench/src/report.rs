//! The figures as tables, and which goals they meet.
use crate::growth::{Growth, Point};
use crate::rows::Row;
use std::fmt::Write;

/// Times the plain loop that a step may take.
const PLAIN_MOST: f64 = 3.0;
/// Bytes of stack that a call may use.
const STACK_MOST: usize = 64 * 1024;
/// What a doubled log may multiply the time of a close by: 2, and a tenth for the measuring.
const DOUBLED_MOST: f64 = 2.1;

pub fn markdown(rows: &[Row], growths: &[Growth]) -> String {
    let mut out = String::new();
    calls(&mut out, rows);
    goals(&mut out, rows, growths);
    growths.iter().for_each(|growth| grown(&mut out, growth));
    out
}

fn calls(out: &mut String, rows: &[Row]) {
    out.push_str("| call | proved / second | proved / plain | proved, µs | second, µs | plain, µs | stack proved, bytes | stack second, bytes |\n");
    out.push_str("|---|---:|---:|---:|---:|---:|---:|---:|\n");
    for row in rows {
        let Row { contest, stacks } = row;
        let [proved_stack, second_stack] =
            stacks.map_or([String::new(), String::new()], |(proved, second)| [proved, second].map(|bytes| bytes.to_string()));
        let (name, proved, second) = (&contest.name, contest.proved(), contest.second());
        let to_plain = contest.plain().map_or(String::new(), |plain| format!("{:.2}", proved / plain));
        let plain = contest.plain().map_or(String::new(), micros);
        let (ratio, proved, second) = (proved / second, micros(proved), micros(second));
        let _ = writeln!(out, "| {name} | {ratio:.2} | {to_plain} | {proved} | {second} | {plain} | {proved_stack} | {second_stack} |");
    }
}

fn micros(time: f64) -> String {
    match time {
        small if small < 1.0 => format!("{small:.3}"),
        middle if middle < 100.0 => format!("{middle:.2}"),
        large => format!("{large:.0}"),
    }
}

fn goals(out: &mut String, rows: &[Row], growths: &[Growth]) {
    out.push_str("\n| goal | worst figure | met |\n|---|---|---|\n");
    let mut goal = |goal: &str, figure: String, met: bool| {
        let _ = writeln!(out, "| {goal} | {figure} | {} |", if met { "yes" } else { "no" });
    };
    let ratios: Vec<f64> = rows.iter().map(|row| row.contest.proved() / row.contest.second()).collect();
    let (slowest, slower) = (most(&ratios), ratios.iter().filter(|&&ratio| ratio > 1.0).count());
    goal("no call slower than the second program", format!("{slowest:.2} times; {slower} of {} rows slower", rows.len()), slower == 0);
    let steps: Vec<f64> = rows.iter().filter_map(|row| Some(row.contest.proved() / row.contest.plain()?)).collect();
    let steps = most(&steps);
    goal("a step at n = 16 within 3 times the plain loop", format!("{steps:.2} times"), steps <= PLAIN_MOST);
    let stack = rows.iter().filter_map(|row| row.stacks).map(|(proved, _)| proved).max().unwrap_or(0);
    goal("each call within 64 KiB of stack", format!("{stack} bytes"), stack <= STACK_MOST);
    if let Some(close) = growths.iter().find(|growth| growth.name == "close") {
        let doubled = doubled(close);
        goal("a close linear in the log", format!("a log twice as long takes {doubled:.2} times as long"), doubled <= DOUBLED_MOST);
    }
}

/// The most that the time is multiplied by where what grows is doubled.
fn doubled(growth: &Growth) -> f64 {
    let at = |wanted: usize| growth.points.iter().find(|point| point.at == wanted).map(|point| point.contest.proved());
    let doubled: Vec<f64> = growth.points.iter().filter_map(|point| Some(at(2 * point.at)? / point.contest.proved())).collect();
    most(&doubled)
}

fn most(figures: &[f64]) -> f64 {
    figures.iter().copied().fold(0.0, f64::max)
}

fn grown(out: &mut String, growth: &Growth) {
    let _ = writeln!(out, "\n| {}: {} | proved, µs | second, µs | proved / second |\n|---:|---:|---:|---:|", growth.name, growth.over);
    for Point { at, contest } in &growth.points {
        let (proved, second) = (contest.proved(), contest.second());
        let _ = writeln!(out, "| {at} | {} | {} | {:.2} |", micros(proved), micros(second), proved / second);
    }
}
