//! Reads the crate's own `Debug` output and writes the books from it.

use std::fmt::Write as _;

/// A value as `Debug` shows it.
#[derive(Debug)]
enum Value {
    /// A number, or a name without fields.
    Atom(String),
    /// A name with fields; a tuple's fields have empty names.
    Named(String, Vec<(String, Value)>),
    /// A list or a tuple without a name.
    List(Vec<Value>),
    /// A set, or a map with the second part present.
    Entries(Vec<(Value, Option<Value>)>),
}

struct Reader<'a> {
    text: &'a [u8],
    at: usize,
}

impl<'a> Reader<'a> {
    fn peek(&self) -> u8 {
        self.text.get(self.at).copied().unwrap_or(0)
    }

    fn skip_blanks(&mut self) {
        while self.peek() == b' ' {
            self.at += 1;
        }
    }

    /// Steps over the byte if it is the next one.
    fn eat(&mut self, byte: u8) -> bool {
        self.skip_blanks();
        let found = self.peek() == byte;
        if found {
            self.at += 1;
        }
        found
    }

    fn word(&mut self) -> String {
        self.skip_blanks();
        let start = self.at;
        while self.peek().is_ascii_alphanumeric() || self.peek() == b'_' || self.peek() == b'-' {
            self.at += 1;
        }
        assert!(self.at > start, "a value is expected at byte {} of the crate's output", self.at);
        String::from_utf8_lossy(&self.text[start..self.at]).into_owned()
    }

    fn value(&mut self) -> Value {
        if self.eat(b'[') {
            return Value::List(self.list(b']'));
        }
        if self.eat(b'(') {
            return Value::List(self.list(b')'));
        }
        if self.eat(b'{') {
            return Value::Entries(self.entries());
        }
        let word = self.word();
        if self.peek() == b'(' {
            self.at += 1;
            let fields = self.list(b')').into_iter().map(|value| (String::new(), value)).collect();
            return Value::Named(word, fields);
        }
        if self.text[self.at..].starts_with(b" {") {
            self.at += 2;
            return Value::Named(word, self.fields());
        }
        Value::Atom(word)
    }

    fn list(&mut self, end: u8) -> Vec<Value> {
        let mut values = vec![];
        while !self.eat(end) {
            values.push(self.value());
            self.eat(b',');
        }
        values
    }

    fn entries(&mut self) -> Vec<(Value, Option<Value>)> {
        let mut entries = vec![];
        while !self.eat(b'}') {
            let key = self.value();
            let value = if self.eat(b':') { Some(self.value()) } else { None };
            entries.push((key, value));
            self.eat(b',');
        }
        entries
    }

    fn fields(&mut self) -> Vec<(String, Value)> {
        let mut fields = vec![];
        while !self.eat(b'}') {
            let name = self.word();
            assert!(self.eat(b':'), "a field's name is followed by a colon");
            fields.push((name, self.value()));
            self.eat(b',');
        }
        fields
    }
}

impl Value {
    fn field(&self, name: &str) -> &Value {
        match self {
            Value::Named(_, fields) => match fields.iter().find(|(n, _)| n == name) {
                Some((_, value)) => value,
                None => panic!("the crate shows no field {} in {:?}", name, self),
            },
            _ => panic!("the crate shows no field {} in {:?}", name, self),
        }
    }

    /// The only part of a one-place tuple.
    fn inner(&self) -> &Value {
        match self {
            Value::Named(_, fields) if fields.len() == 1 => &fields[0].1,
            _ => panic!("{:?} has not one part", self),
        }
    }

    fn name(&self) -> &str {
        match self {
            Value::Named(name, _) | Value::Atom(name) => name,
            _ => panic!("{:?} has no name", self),
        }
    }

    fn list(&self) -> &[Value] {
        match self {
            Value::List(values) => values,
            _ => panic!("{:?} is no list", self),
        }
    }

    fn entries(&self) -> &[(Value, Option<Value>)] {
        match self {
            Value::Entries(entries) => entries,
            _ => panic!("{:?} is no set or map", self),
        }
    }

    /// The members of a set.
    fn members(&self) -> Vec<&str> {
        self.entries().iter().map(|(key, _)| key.name()).collect()
    }

    /// The pairs of a map.
    fn pairs(&self) -> impl Iterator<Item = (&str, &Value)> {
        self.entries().iter().map(move |(key, value)| match value {
            Some(value) => (key.name(), value),
            None => panic!("{:?} is no map", self),
        })
    }
}

/// The lines of the books between `started yes` and `length`.
pub fn books(debug: &str) -> String {
    let accountant = Reader { text: debug.as_bytes(), at: 0 }.value();
    let segments = accountant.field("segments").list();
    let mut out = String::new();
    let _ = writeln!(out, "tip {}", accountant.field("tip").name());
    let _ = writeln!(out, "stabilized {}", accountant.field("max_stabilized_lsn").name());
    write_words(&mut out, "free", &accountant.field("free").members());
    let ordering: Vec<String> = accountant
        .field("ordering")
        .pairs()
        .map(|(lsn, offset)| format!("{}:{}", lsn, offset.name()))
        .collect();
    write_words(&mut out, "ordering", &ordering.iter().map(String::as_str).collect::<Vec<_>>());
    write_segments(&mut out, segments);
    write_pages(&mut out, segments);
    for (offset, pages) in accountant.field("segment_cleaner").field("inner").pairs() {
        write_words(&mut out, &format!("queued {}", offset), &pages.members());
    }
    write_active_sets(&mut out, segments, "blob", "deferred_rm_blob");
    write_active_sets(&mut out, segments, "freeable", "can_free_upon_deactivation");
    write_faults(&mut out, accountant.field("async_truncations"));
    out
}

fn write_words(out: &mut String, head: &str, words: &[&str]) {
    out.push_str(head);
    for word in words {
        let _ = write!(out, " {}", word);
    }
    out.push('\n');
}

fn write_segments(out: &mut String, segments: &[Value]) {
    for (number, segment) in segments.iter().enumerate() {
        let state = segment.inner();
        let names: &[&str] = match segment.name() {
            "Free" => {
                let former = match state.field("previous_lsn") {
                    Value::Atom(_) => "-",
                    some => some.inner().name(),
                };
                let _ = writeln!(out, "segment {} free {}", number, former);
                continue;
            }
            "Active" => &["lsn", "rss", "deferred_replaced_rss", "latest_replacement_lsn"],
            "Inactive" => &["lsn", "rss", "max_pids", "replaced_pids", "latest_replacement_lsn"],
            _ => &["lsn", "max_pids", "replaced_pids", "latest_replacement_lsn"],
        };
        let head = format!("segment {} {}", number, segment.name().to_lowercase());
        let numbers: Vec<&str> = names.iter().map(|name| state.field(name).name()).collect();
        write_words(out, &head, &numbers);
    }
}

/// The crate keeps page ids in Active and Inactive segments only, and in Inactive ones only those that lie there.
fn write_pages(out: &mut String, segments: &[Value]) {
    for (number, segment) in segments.iter().enumerate() {
        let state = segment.inner();
        let left = match segment.name() {
            "Active" => state.field("deferred_replaced_pids").members(),
            "Inactive" => vec![],
            _ => continue,
        };
        for page in state.field("pids").members() {
            let mark = if left.contains(&page) { "left" } else { "lies" };
            let _ = writeln!(out, "page {} {} {}", number, page, mark);
        }
    }
}

fn write_active_sets(out: &mut String, segments: &[Value], head: &str, field: &str) {
    for (number, segment) in segments.iter().enumerate() {
        if segment.name() != "Active" {
            continue;
        }
        for member in segment.inner().field(field).members() {
            let _ = writeln!(out, "{} {} {}", head, number, member);
        }
    }
}

/// A remembered fault is a promise that was kept with an error.
fn write_faults(out: &mut String, promises: &Value) {
    for (offset, promise) in promises.pairs() {
        let answer = promise.inner();
        if answer.name() != "Err" {
            continue;
        }
        let fault = answer.inner().inner().field("error");
        let _ =
            writeln!(out, "fault {} {} {}", offset, fault.field("code").name(), fault.field("layer").name());
    }
}
