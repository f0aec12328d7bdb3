//! Pictures, in one pass, with room taken once and copies of a character taken from a constant.

use crate::report::{Label, Report, Severity, Source};
use crate::texts::{columns, push_lines, push_rows, Indent};
use memchr::{memchr, memchr_iter, memrchr};

const WIDTH: usize = 78;

const SPACES: &str = "                                                                ";

const BARS: &str = "────────────────────────────────────────────────────────────────";

fn push_copies(out: &mut String, copies: &str, size: usize, mut many: usize) {
    while many > 64 {
        out.push_str(copies);
        many -= 64;
    }
    out.push_str(&copies[..size * many]);
}

fn push_spaces(out: &mut String, many: usize) {
    push_copies(out, SPACES, 1, many);
}

fn push_bars(out: &mut String, many: usize) {
    push_copies(out, BARS, 3, many);
}

fn push_number(out: &mut String, number: usize, wide: usize) {
    let mut digits = [b' '; 20];
    let mut at = 20;
    let mut left = number;
    loop {
        at -= 1;
        digits[at] = b'0' + (left % 10) as u8;
        left /= 10;
        if left == 0 {
            break;
        }
    }
    out.push_str(std::str::from_utf8(&digits[at.min(20 - wide)..]).unwrap());
}

/// A label with the numbers of its first and last line.
#[derive(Clone, Copy)]
struct Placed<'a> {
    label: &'a Label,
    first: usize,
    last: usize,
}

impl Placed<'_> {
    fn is_over_lines(&self) -> bool {
        self.first != self.last
    }

    fn is_alone_on(&self, line: usize) -> bool {
        self.first == line && self.last == line
    }
}

pub fn drawn(report: &Report, wraps: bool) -> String {
    let mut out = String::with_capacity(2048);
    push_report(&mut out, report, None, wraps);
    out
}

fn push_text(out: &mut String, text: &str, wraps: bool, indent: &Indent) {
    if wraps {
        push_rows(out, text, WIDTH, indent);
    } else {
        push_lines(out, text, indent);
    }
}

fn push_causes(out: &mut String, causes: &[String], wraps: bool) {
    for (at, cause) in causes.iter().enumerate() {
        let is_last = at + 1 == causes.len();
        let indent = Indent {
            first: if is_last {
                "  ╰─▶ "
            } else {
                "  ├─▶ "
            },
            other: if is_last { "      " } else { "  │   " },
            columns: 6,
        };
        push_text(out, cause, wraps, &indent);
    }
}

fn push_report<'a>(out: &mut String, report: &'a Report, outer: Option<&'a Source>, wraps: bool) {
    if let Some(code) = &report.code {
        out.push_str(code);
        if let Some(url) = &report.url {
            out.push_str(" (");
            out.push_str(url);
            out.push(')');
        }
        out.push_str("\n\n");
    }
    let first = match report.severity {
        Severity::Error => "  × ",
        Severity::Warning => "  ⚠ ",
        Severity::Advice => "  ☞ ",
    };
    push_text(
        out,
        &report.message,
        wraps,
        &Indent {
            first,
            other: "  │ ",
            columns: 4,
        },
    );
    push_causes(out, &report.causes, wraps);
    let source = report.source.as_ref().or(outer);
    if let Some(source) = source.filter(|_| !report.labels.is_empty()) {
        push_snippets(out, &report.labels, source);
    }
    if let Some(help) = &report.help {
        let indent = Indent {
            first: "  help: ",
            other: "        ",
            columns: 8,
        };
        push_text(out, help, wraps, &indent);
    }
    for inner in &report.related {
        out.push('\n');
        out.push_str(title_of(inner.severity));
        if inner.code.is_none() {
            out.push('\n');
        }
        push_report(out, inner, source, wraps);
    }
}

fn title_of(severity: Severity) -> &'static str {
    match severity {
        Severity::Error => "Error: ",
        Severity::Warning => "Warning: ",
        Severity::Advice => "Advice: ",
    }
}

fn push_snippets(out: &mut String, labels: &[Label], source: &Source) {
    let bytes = source.text.as_bytes();
    let lines_in = |from: usize, to: usize| memchr_iter(b'\n', &bytes[from..to]).count();
    let mut placed: Vec<Placed> = labels
        .iter()
        .map(|label| Placed {
            label,
            first: 0,
            last: 0,
        })
        .collect();
    placed.sort_by_key(|it| it.label.from);
    let (mut line, mut at) = (0, 0);
    for it in &mut placed {
        let (from, to) = (it.label.from, it.label.to);
        line += lines_in(at, from);
        at = from;
        it.first = line;
        it.last = line + if to > from { lines_in(from, to - 1) } else { 0 };
    }
    let mut begin = 0;
    while begin < placed.len() {
        let mut last = placed[begin].last;
        let mut end = begin + 1;
        while end < placed.len() && placed[end].first <= last + 3 {
            last = last.max(placed[end].last);
            end += 1;
        }
        push_snippet(out, &placed[begin..end], source, last);
        begin = end;
    }
}

fn start_of_line(bytes: &[u8], at: usize) -> usize {
    memrchr(b'\n', &bytes[..at]).map_or(0, |feed| feed + 1)
}

fn push_snippet(out: &mut String, labels: &[Placed], source: &Source, last: usize) {
    let bytes = source.text.as_bytes();
    let mut start = start_of_line(bytes, labels[0].label.from);
    let mut line = labels[0].first;
    if start > 0 {
        start = start_of_line(bytes, start - 1);
        line -= 1;
    }
    let wide = (last + 2).ilog10() as usize + 1;
    let head = labels
        .iter()
        .find(|it| it.label.primary)
        .unwrap_or(&labels[0]);
    push_spaces(out, wide + 2);
    out.push_str("╭─[");
    out.push_str(&source.name);
    out.push(':');
    push_number(out, head.first + 1, 0);
    out.push(':');
    push_number(
        out,
        head.label.from - start_of_line(bytes, head.label.from) + 1,
        0,
    );
    out.push_str("]\n");
    while line <= last + 1 && start < bytes.len() {
        let end = memchr(b'\n', &bytes[start..]).map_or(bytes.len(), |feed| start + feed);
        let row = Row {
            labels,
            text: &source.text[start..end],
            start,
            line,
            wide,
        };
        row.push(out);
        start = end + 1;
        line += 1;
    }
    push_spaces(out, wide + 2);
    out.push_str("╰────\n");
}

/// A line of a snippet.
struct Row<'a> {
    labels: &'a [Placed<'a>],
    text: &'a str,
    start: usize,
    line: usize,
    wide: usize,
}

impl Row<'_> {
    fn push(&self, out: &mut String) {
        out.push(' ');
        push_number(out, self.line + 1, self.wide);
        out.push_str(" │ ");
        for it in self.labels.iter().filter(|it| it.is_over_lines()) {
            out.push_str(match self.line {
                line if line == it.first => "╭─▶ ",
                line if line == it.last => "├─▶ ",
                line if it.first < line && line < it.last => "│   ",
                _ => "    ",
            });
        }
        out.push_str(self.text);
        out.push('\n');
        self.push_marks(out);
        for it in self
            .labels
            .iter()
            .filter(|it| it.is_over_lines() && it.last == self.line)
        {
            self.push_front(out);
            out.push_str("╰────");
            if let Some(text) = &it.label.text {
                out.push(' ');
                out.push_str(text);
            }
            out.push('\n');
        }
    }

    fn push_front(&self, out: &mut String) {
        push_spaces(out, self.wide + 2);
        out.push_str("· ");
    }

    fn push_gutters(&self, out: &mut String) {
        for it in self.labels.iter().filter(|it| it.is_over_lines()) {
            let is_open = it.first < self.line && self.line <= it.last;
            out.push_str(if is_open { "│   " } else { "    " });
        }
    }

    /// The columns from which and up to which a label is marked.
    fn marked(&self, label: &Label) -> (usize, usize) {
        let end = self.start + self.text.len();
        let from = columns(&self.text[..label.from - self.start]);
        let own = columns(&self.text[label.from - self.start..label.to.min(end) - self.start]);
        (from, (from + own).max(from + 1))
    }

    fn push_marks(&self, out: &mut String) {
        let mut texts = 0;
        let mut reached = None;
        for it in self.labels.iter().filter(|it| it.is_alone_on(self.line)) {
            if reached.is_none() {
                self.push_front(out);
                self.push_gutters(out);
            }
            let (from, to) = self.marked(it.label);
            push_spaces(out, from.saturating_sub(reached.unwrap_or(0)));
            if it.label.text.is_some() {
                let half = (to - from) / 2;
                push_bars(out, half);
                out.push('┬');
                push_bars(out, to - from - half - 1);
                texts += 1;
            } else {
                push_bars(out, to - from);
            }
            reached = Some(to);
        }
        if reached.is_some() {
            out.push('\n');
        }
        for text in (0..texts).rev() {
            self.push_hung(out, text);
        }
    }

    /// The row of one of the texts that hang from marks, after the stems of those before it.
    fn push_hung(&self, out: &mut String, text: usize) {
        self.push_front(out);
        self.push_gutters(out);
        let mut reached = 0;
        let texts = self.labels.iter().filter(|it| it.is_alone_on(self.line));
        let texts = texts.filter_map(|it| it.label.text.as_ref().map(|text| (it.label, text)));
        for (at, (label, words)) in texts.take(text + 1).enumerate() {
            let (from, to) = self.marked(label);
            let anchor = from + (to - from) / 2;
            push_spaces(out, anchor.saturating_sub(reached));
            reached = anchor + 1;
            if at < text {
                out.push('│');
            } else {
                out.push_str("╰── ");
                out.push_str(words);
                out.push('\n');
            }
        }
    }
}
