//! Small changes of source files, and the plain list that they are kept in.
//!
//! A change begins with `= name`. An edit of it begins with `@ file` or `@ file:line`; lines that begin
//! `-` are the old text, lines that begin `+` the new. Without a line's number the old text stands once.

/// One place of one source file.
#[derive(Clone, Debug, PartialEq)]
pub struct Edit {
    pub file: String,
    /// The number of the old text's first line, from 1; 0 where the old text stands once.
    pub line: usize,
    pub old: String,
    pub new: String,
}

#[derive(Clone, Debug, PartialEq)]
pub struct Change {
    pub name: String,
    pub edits: Vec<Edit>,
}

pub fn read(text: &str) -> Vec<Change> {
    let mut changes: Vec<Change> = Vec::new();
    for line in text.lines().filter(|line| !line.is_empty()) {
        let (mark, rest) = line.split_at(1);
        if mark == "=" {
            changes.push(Change { name: rest.trim().to_string(), edits: Vec::new() });
            continue;
        }
        let Some(change) = changes.last_mut() else { continue };
        if mark == "@" {
            change.edits.push(placed(rest.trim()));
            continue;
        }
        let edit = change.edits.last_mut().unwrap_or_else(|| panic!("no file before: {line}"));
        match mark {
            "-" => edit.old.push_str(&format!("{rest}\n")),
            "+" => edit.new.push_str(&format!("{rest}\n")),
            _ => panic!("neither of = @ - +: {line}"),
        }
    }
    changes
}

/// An edit of a place with no text yet.
fn placed(place: &str) -> Edit {
    let (file, line) = match place.rsplit_once(':') {
        Some((file, line)) => (file, line.parse().expect("a line's number")),
        None => (place, 0),
    };
    Edit { file: file.to_string(), line, old: String::new(), new: String::new() }
}

/// The change as it stands in a list.
pub fn written(change: &Change) -> String {
    let mut text = format!("= {}\n", change.name);
    for edit in &change.edits {
        text.push_str(&format!("@ {}:{}\n", edit.file, edit.line));
        for line in edit.old.lines() {
            text.push_str(&format!("-{line}\n"));
        }
        for line in edit.new.lines() {
            text.push_str(&format!("+{line}\n"));
        }
    }
    text
}

impl Edit {
    /// The source with this edit. The old text must stand where the edit says.
    pub fn applied(&self, source: &str) -> String {
        if self.line == 0 {
            assert_eq!(source.matches(&self.old).count(), 1, "{}: the old text must stand once", self.file);
            return source.replace(&self.old, &self.new);
        }
        let before: usize = source.split_inclusive('\n').take(self.line - 1).map(str::len).sum();
        let (front, rest) = source.split_at(before);
        let rest = rest.strip_prefix(self.old.as_str());
        let rest = rest.unwrap_or_else(|| panic!("{}:{}: another text stands there", self.file, self.line));
        format!("{front}{}{rest}", self.new)
    }
}

#[cfg(test)]
mod tests {
    use super::*;

    const LIST: &str = "= one\n@ a.rs:2\n-b\n+c\n= two\n@ a.rs:1\n-a\n@ a.rs:2\n-c\n+d\n";

    #[test]
    fn a_list_comes_back() {
        let changes = read(LIST);
        assert_eq!(changes.iter().map(written).collect::<String>(), LIST);
        assert_eq!(changes[1].edits.len(), 2);
    }

    #[test]
    fn edits_are_made_where_they_say() {
        let changes = read(LIST);
        assert_eq!(changes[0].edits[0].applied("b\nb\nb\n"), "b\nc\nb\n");
        assert_eq!(changes[1].edits[0].applied("a\nb\n"), "b\n");
        let once = Edit { file: String::new(), line: 0, old: "b".to_string(), new: "c".to_string() };
        assert_eq!(once.applied("abd"), "acd");
    }
}
