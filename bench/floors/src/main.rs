//! Floors: what a pass that is written by hand takes for the same bytes.
//!
//!     floors WHAT TIMES < DESCRIPTION
//!     floors WHAT show < DESCRIPTION
//!
//! The first makes WHAT TIMES times, and writes how many bytes one has; the second writes it. A
//! description is one of those that `bench` reads. WHAT is:
//!
//! - `picture`: what `bench --theme unicode_nocolor` makes of reports with labels, help, causes that
//!   are texts and related reports, if no label's line is cut and no text holds an escape
//! - `lines`: the same with `--wrap no`, whatever the texts hold
//! - `json`: what `bench --json` makes of a message alone
//! - `widths`: the columns of the source's text; `ends`: the ends of its lines, in a list

mod picture;
mod report;
mod texts;

use std::hint::black_box;
use std::io::{Read, Write};

fn made(what: &str, report: &report::Report) -> Vec<u8> {
    match what {
        "picture" => picture::drawn(report, true).into_bytes(),
        "lines" => picture::drawn(report, false).into_bytes(),
        "json" => texts::json_report(&report.message).into_bytes(),
        _ => panic!("no such floor: {what}"),
    }
}

fn length(what: &str, report: &report::Report) -> usize {
    let text = report.source.as_ref().map_or("", |source| &source.text);
    match what {
        "widths" => unicode_width::UnicodeWidthStr::width(text),
        "ends" => texts::line_ends(text.as_bytes()).len(),
        _ => made(what, report).len(),
    }
}

fn main() {
    let words: Vec<String> = std::env::args().collect();
    let mut description = Vec::new();
    std::io::stdin().read_to_end(&mut description).unwrap();
    let report = report::read(&serde_json::from_slice(&description).unwrap());
    if words[2] == "show" {
        std::io::stdout()
            .write_all(&made(&words[1], &report))
            .unwrap();
        return;
    }
    let mut bytes = 0;
    for _ in 0..words[2].parse().unwrap() {
        bytes = black_box(length(&words[1], black_box(&report)));
    }
    println!("{bytes}");
}
