//! Reports as descriptions have them.

use serde_json::Value;

pub struct Label {
    pub from: usize,
    pub to: usize,
    pub text: Option<String>,
    pub primary: bool,
}

pub struct Source {
    pub name: String,
    pub text: String,
}

#[derive(Clone, Copy)]
pub enum Severity {
    Error,
    Warning,
    Advice,
}

pub struct Report {
    pub message: String,
    pub code: Option<String>,
    pub url: Option<String>,
    pub help: Option<String>,
    pub severity: Severity,
    pub labels: Vec<Label>,
    pub source: Option<Source>,
    pub causes: Vec<String>,
    pub related: Vec<Report>,
}

fn text_at(value: &Value, name: &str) -> Option<String> {
    value[name].as_str().map(String::from)
}

fn list_at<T>(value: &Value, name: &str, read: impl Fn(&Value) -> T) -> Vec<T> {
    let items = value[name].as_array();
    items.map_or(Vec::new(), |items| items.iter().map(read).collect())
}

fn label(value: &Value) -> Label {
    let from = value["offset"].as_u64().unwrap() as usize;
    Label {
        from,
        to: from + value["length"].as_u64().unwrap() as usize,
        text: text_at(value, "label"),
        primary: value["primary"].as_bool().unwrap_or(false),
    }
}

pub fn read(value: &Value) -> Report {
    let source = &value["source"];
    Report {
        message: text_at(value, "message").unwrap(),
        code: text_at(value, "code"),
        url: text_at(value, "url"),
        help: text_at(value, "help"),
        severity: match value["severity"].as_str() {
            Some("warning") => Severity::Warning,
            Some("advice") => Severity::Advice,
            _ => Severity::Error,
        },
        labels: list_at(value, "labels", label),
        source: text_at(source, "text").map(|text| Source {
            name: text_at(source, "name").unwrap_or_default(),
            text,
        }),
        causes: list_at(value, "causes", |cause| cause.as_str().unwrap().to_string()),
        related: list_at(value, "related", read),
    }
}
