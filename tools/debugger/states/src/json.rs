//! Answers as texts of JSON.

/// What can be written as JSON.
pub trait Json {
    fn write(&self, out: &mut String);
}

/// An object, by its fields in order.
pub struct Object<'a>(pub &'a [(&'a str, &'a dyn Json)]);

pub fn text(value: &dyn Json) -> String {
    let mut out = String::new();
    value.write(&mut out);
    out
}

impl Json for Object<'_> {
    fn write(&self, out: &mut String) {
        for (at, (name, value)) in self.0.iter().enumerate() {
            out.push(if at == 0 { '{' } else { ',' });
            name.write(out);
            out.push(':');
            value.write(out);
        }
        out.push('}');
    }
}

/// A value that is written already.
pub struct Written(pub String);

impl Json for Written {
    fn write(&self, out: &mut String) {
        out.push_str(&self.0);
    }
}

impl Json for str {
    fn write(&self, out: &mut String) {
        out.push('"');
        for letter in self.chars() {
            match letter {
                '"' | '\\' => out.extend(['\\', letter]),
                '\u{0}'..='\u{1f}' => out.push_str(&format!("\\u{:04x}", letter as u32)),
                _ => out.push(letter),
            }
        }
        out.push('"');
    }
}

impl Json for &str {
    fn write(&self, out: &mut String) {
        (**self).write(out);
    }
}

impl Json for String {
    fn write(&self, out: &mut String) {
        self.as_str().write(out);
    }
}

macro_rules! as_displayed {
    ($($kind:ty),*) => {
        $(impl Json for $kind {
            fn write(&self, out: &mut String) {
                out.push_str(&self.to_string());
            }
        })*
    };
}
as_displayed!(u32, u64, usize, bool);

impl<T: Json> Json for Option<T> {
    fn write(&self, out: &mut String) {
        match self {
            Some(value) => value.write(out),
            None => out.push_str("null"),
        }
    }
}

impl<T: Json> Json for [T] {
    fn write(&self, out: &mut String) {
        out.push('[');
        for (at, value) in self.iter().enumerate() {
            if at > 0 {
                out.push(',');
            }
            value.write(out);
        }
        out.push(']');
    }
}

impl<T: Json> Json for Vec<T> {
    fn write(&self, out: &mut String) {
        self.as_slice().write(out);
    }
}

impl<T: Json, const N: usize> Json for [T; N] {
    fn write(&self, out: &mut String) {
        self.as_slice().write(out);
    }
}
