//! The few forms of JSON that the command writes.

/// An object that grows field by field, in the order in which they are added.
pub struct Object(String);

impl Object {
    pub fn new() -> Object {
        Object(String::new())
    }

    /// A field whose value is JSON already.
    pub fn raw(mut self, name: &str, value: &str) -> Object {
        if !self.0.is_empty() {
            self.0.push_str(", ");
        }
        self.0.push_str(&format!("{}: {value}", string(name)));
        self
    }

    pub fn text(self, name: &str, value: &str) -> Object {
        self.raw(name, &string(value))
    }

    pub fn number(self, name: &str, value: u64) -> Object {
        self.raw(name, &value.to_string())
    }

    pub fn boolean(self, name: &str, value: bool) -> Object {
        self.raw(name, if value { "true" } else { "false" })
    }

    /// A value from a stream: as text if it is UTF-8, and else as hexadecimal digits in a field with `_hex` behind its name.
    pub fn bytes(self, name: &str, value: &[u8]) -> Object {
        match std::str::from_utf8(value) {
            Ok(text) => self.text(name, text),
            Err(_) => {
                let digits: String = value.iter().map(|byte| format!("{byte:02x}")).collect();
                self.text(&format!("{name}_hex"), &digits)
            }
        }
    }

    pub fn some<T>(self, value: Option<T>, add: impl FnOnce(Object, T) -> Object) -> Object {
        match value {
            Some(value) => add(self, value),
            None => self,
        }
    }

    pub fn end(self) -> String {
        format!("{{{}}}", self.0)
    }
}

pub fn list(values: impl IntoIterator<Item = String>) -> String {
    format!("[{}]", values.into_iter().collect::<Vec<_>>().join(", "))
}

/// A text between quotes. Control characters, C1 too, are written by their numbers, so that a terminal may show it.
pub fn string(text: &str) -> String {
    let mut quoted = String::from("\"");
    for c in text.chars() {
        match c {
            '"' => quoted.push_str("\\\""),
            '\\' => quoted.push_str("\\\\"),
            '\n' => quoted.push_str("\\n"),
            c if c.is_control() => quoted.push_str(&format!("\\u{:04x}", c as u32)),
            c => quoted.push(c),
        }
    }
    quoted.push('"');
    quoted
}

#[cfg(test)]
mod tests {
    use super::{list, string, Object};

    #[test]
    fn texts_are_escaped() {
        assert_eq!(string("a\"b\\c\n\u{1b}\u{9b}Å"), "\"a\\\"b\\\\c\\n\\u001b\\u009bÅ\"");
    }

    #[test]
    fn objects_keep_their_order() {
        let made = Object::new().number("b", 1).text("a", "x").bytes("v", b"\xff").raw("l", &list(["1".to_string()])).end();
        assert_eq!(made, "{\"b\": 1, \"a\": \"x\", \"v_hex\": \"ff\", \"l\": [1]}");
    }
}
