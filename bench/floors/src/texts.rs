//! Texts under indents, and texts as JSON.

use memchr::{memchr, memchr2_iter, memrchr};
use unicode_width::UnicodeWidthStr;

pub fn columns(text: &str) -> usize {
    if text.is_ascii() {
        text.len()
    } else {
        text.width()
    }
}

/// What stands in front of a text's first row and of the others, all of `columns` columns.
pub struct Indent {
    pub first: &'static str,
    pub other: &'static str,
    pub columns: usize,
}

/// Each line after its indent, and not wrapped; white lines have the indent without spaces at its
/// end. Then a line feed.
pub fn push_lines(out: &mut String, text: &str, indent: &Indent) {
    let mut own = indent.first;
    let mut rest = text;
    while let Some(end) = memchr(b'\n', rest.as_bytes()) {
        push_line(out, &rest[..end], own);
        out.push('\n');
        rest = &rest[end + 1..];
        own = indent.other;
    }
    if !rest.is_empty() {
        push_line(out, rest, own);
    }
    out.push('\n');
}

fn push_line(out: &mut String, line: &str, indent: &str) {
    let is_white = line.trim_start().is_empty();
    out.push_str(if is_white { indent.trim_end() } else { indent });
    out.push_str(line);
}

/// Rows of at most `width` columns, cut at spaces alone, each after its indent and with a line
/// feed. A word that is wider than a row isn't cut.
pub fn push_rows(out: &mut String, text: &str, width: usize, indent: &Indent) {
    let room = width - indent.columns;
    let mut own = indent.first;
    for line in text.split('\n') {
        out.push_str(own);
        own = indent.other;
        if line.is_ascii() {
            push_row(out, line, room, own);
        } else {
            push_wide_row(out, line, room, own);
        }
    }
}

fn push_row(out: &mut String, line: &str, room: usize, indent: &str) {
    let bytes = line.as_bytes();
    let mut row = 0;
    while bytes.len() - row > room {
        let mut end = row + room;
        if bytes[end] != b' ' {
            end = memrchr(b' ', &bytes[row..end]).map_or(end, |space| row + space);
        }
        out.push_str(line[row..end].trim_end_matches(' '));
        out.push('\n');
        out.push_str(indent);
        row = end + usize::from(bytes.get(end) == Some(&b' '));
    }
    out.push_str(&line[row..]);
    out.push('\n');
}

fn push_wide_row(out: &mut String, line: &str, room: usize, indent: &str) {
    let mut used = 0;
    for word in line.split_inclusive(' ') {
        let wide = columns(word.trim_end_matches(' '));
        if used > 0 && used + wide > room {
            out.truncate(out.trim_end_matches(' ').len());
            out.push('\n');
            out.push_str(indent);
            used = 0;
        }
        out.push_str(word);
        used += columns(word);
    }
    out.push('\n');
}

const ESCAPES: [u8; 256] = {
    let mut table = [0; 256];
    let mut byte = 0;
    while byte < 32 {
        table[byte] = b'u';
        byte += 1;
    }
    table[8] = b'b';
    table[9] = b't';
    table[10] = b'n';
    table[12] = b'f';
    table[13] = b'r';
    table[34] = b'"';
    table[92] = b'\\';
    table
};

fn push_escaped(out: &mut Vec<u8>, text: &str) {
    let bytes = text.as_bytes();
    let mut start = 0;
    for (at, &byte) in bytes.iter().enumerate() {
        let escape = ESCAPES[byte as usize];
        if escape == 0 {
            continue;
        }
        out.extend_from_slice(&bytes[start..at]);
        start = at + 1;
        if escape == b'u' {
            let digit = |it: u8| b"0123456789abcdef"[it as usize];
            out.extend_from_slice(b"\\u00");
            out.extend_from_slice(&[digit(byte >> 4), digit(byte & 15)]);
        } else {
            out.extend_from_slice(&[b'\\', escape]);
        }
    }
    out.extend_from_slice(&bytes[start..]);
}

/// A report that is a message alone.
pub fn json_report(message: &str) -> String {
    let mut out = Vec::with_capacity(message.len() + message.len() / 4 + 128);
    out.extend_from_slice(b"{\"message\": \"");
    push_escaped(&mut out, message);
    out.extend_from_slice(b"\",\"severity\": \"error\",\"causes\": [],");
    out.extend_from_slice(b"\"labels\": [],\"related\": []}");
    String::from_utf8(out).unwrap()
}

/// Where the lines end.
pub fn line_ends(bytes: &[u8]) -> Vec<usize> {
    let is_end = |at: &usize| bytes[*at] == b'\n' || bytes.get(at + 1) != Some(&b'\n');
    memchr2_iter(b'\n', b'\r', bytes)
        .filter(is_end)
        .map(|at| at + 1)
        .collect()
}
