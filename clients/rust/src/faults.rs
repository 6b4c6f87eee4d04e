//! What is wrong in a text, as the library tells it: a list of JSON.

/// A place in a text: its line, and the character in that line, counted from 1.
#[derive(Clone, Copy, Debug, PartialEq, Eq, PartialOrd, Ord, Hash)]
pub struct Place {
    pub line: usize,
    pub column: usize,
}

/// What is wrong in a text, and where.
#[derive(Clone, Debug, PartialEq, Eq)]
#[non_exhaustive]
pub struct Fault {
    /// Where it begins, and the place behind its last character, where they are known.
    pub places: Option<(Place, Place)>,
    /// The name of its kind, as `UnrecognizedToken` or `Shape`.
    pub kind: String,
    /// What is wrong, in a sentence.
    pub message: String,
    /// The tokens of which one was expected, where they are known.
    pub expected: Option<String>,
    /// What helps, where something does.
    pub help: Option<String>,
}

/// The faults of a list, as the library writes it: each object has its keys in one order. `None` for any other text.
pub(crate) fn faults_of(list: &str) -> Option<Vec<Fault>> {
    let mut rest = Rest(list.strip_prefix('[')?.strip_suffix(']')?);
    let mut faults = Vec::new();
    while !rest.0.is_empty() {
        if !faults.is_empty() {
            rest.skip(",")?;
        }
        faults.push(rest.fault()?);
    }
    Some(faults)
}

/// A text, of which a front is read off.
struct Rest<'t>(&'t str);

impl Rest<'_> {
    fn skip(&mut self, text: &str) -> Option<()> {
        self.0 = self.0.strip_prefix(text)?;
        Some(())
    }

    fn fault(&mut self) -> Option<Fault> {
        self.skip("{")?;
        let line = self.number("line")?;
        let column = self.number(",column")?;
        let end_line = self.number(",endLine")?;
        let end_column = self.number(",endColumn")?;
        let start = line.zip(column).map(|(line, column)| Place { line, column });
        let end = end_line
            .zip(end_column)
            .map(|(line, column)| Place { line, column });
        let fault = Fault {
            places: start.zip(end),
            kind: self.text(",kind")??,
            message: self.text(",message")??,
            expected: self.text(",expected")?,
            help: self.text(",help")?,
        };
        self.skip("}")?;
        Some(fault)
    }

    /// A key between quotes, behind what stands before it, and the colon.
    fn key(&mut self, key: &str) -> Option<()> {
        let name = key.trim_start_matches(',');
        self.skip(&key[..key.len() - name.len()])?;
        self.skip("\"")?;
        self.skip(name)?;
        self.skip("\":")
    }

    /// The number at a key, or none where it is null.
    fn number(&mut self, key: &str) -> Option<Option<usize>> {
        self.key(key)?;
        if self.skip("null").is_some() {
            return Some(None);
        }
        let end = self.0.find(|c: char| !c.is_ascii_digit())?;
        let (digits, rest) = self.0.split_at(end);
        self.0 = rest;
        Some(Some(digits.parse().ok()?))
    }

    /// The string at a key, or none where it is null.
    fn text(&mut self, key: &str) -> Option<Option<String>> {
        self.key(key)?;
        if self.skip("null").is_some() {
            return Some(None);
        }
        self.skip("\"")?;
        let mut text = String::new();
        loop {
            let end = self.0.find(['"', '\\'])?;
            let (plain, rest) = self.0.split_at(end);
            text.push_str(plain);
            self.0 = rest;
            if self.skip("\"").is_some() {
                return Some(Some(text));
            }
            text.push(self.escaped()?);
        }
    }

    /// A quote, a backslash, or a character by four digits.
    fn escaped(&mut self) -> Option<char> {
        self.skip("\\")?;
        if self.skip("u").is_none() {
            let c = self.0.chars().next()?;
            self.0 = &self.0[c.len_utf8()..];
            return matches!(c, '"' | '\\').then_some(c);
        }
        let digits = self.0.get(..4)?;
        let code = u32::from_str_radix(digits, 16).ok()?;
        self.0 = &self.0[4..];
        char::from_u32(code)
    }
}

#[cfg(test)]
mod tests {
    use super::{Fault, Place, faults_of};

    #[test]
    fn lists_are_read_back() {
        assert_eq!(faults_of("[]"), Some(Vec::new()));
        let list = concat!(
            r#"[{"line":2,"column":7,"endLine":2,"endColumn":8,"kind":"UnrecognizedToken","message":"unexpected token `\"é\u0009\\\"`","#,
            r#""expected":"expected `{`","help":null},"#,
            r#"{"line":null,"column":null,"endLine":null,"endColumn":null,"kind":"Depth","message":"deep","expected":null,"help":"a"}]"#
        );
        let places = Some((Place { line: 2, column: 7 }, Place { line: 2, column: 8 }));
        let first = Fault {
            places,
            kind: "UnrecognizedToken".to_owned(),
            message: "unexpected token `\"é\t\\\"`".to_owned(),
            expected: Some("expected `{`".to_owned()),
            help: None,
        };
        let second = Fault {
            places: None,
            kind: "Depth".to_owned(),
            message: "deep".to_owned(),
            expected: None,
            help: Some("a".to_owned()),
        };
        assert_eq!(faults_of(list), Some(vec![first, second]));
        for wrong in ["", "[", "[{}]", "[,]", r#"[{"line":1}]"#] {
            assert_eq!(faults_of(wrong), None);
        }
    }
}
