//! Lines that answer commands.

/// What is decided. There are these three, so that a `match` names each.
#[derive(Clone, Copy, Debug, PartialEq, Eq, Hash)]
pub enum Decision {
    /// In every case, whatever stands for what is unknown.
    Allow,
    /// In every case, whatever stands for what is unknown.
    Deny,
    /// What is known doesn't settle it.
    Open,
}

/// What a question is answered.
#[derive(Clone, Debug, PartialEq, Eq)]
#[non_exhaustive]
pub struct Answer {
    pub decision: Decision,
    /// The ids of the policies that are reasons whatever is unknown.
    pub must: Vec<String>,
    /// The ids of those that may be reasons.
    pub may: Vec<String>,
    /// The ids of those that err, each with the kind of its error.
    pub erring: Vec<(String, String)>,
}

/// What a letter behind a backslash stands for.
fn unescaped(letter: char) -> Option<char> {
    Some(match letter {
        'n' => '\n',
        'r' => '\r',
        't' => '\t',
        '0' => '\0',
        '"' | '\\' => letter,
        _ => return None,
    })
}

/// A line, of which a front is read off.
struct Line<'l>(&'l str);

impl<'l> Line<'l> {
    fn skip(&mut self, text: &str) -> Option<()> {
        self.0 = self.0.strip_prefix(text)?;
        Some(())
    }

    fn word(&mut self) -> &'l str {
        let end = self
            .0
            .find(|c: char| !c.is_ascii_alphanumeric())
            .unwrap_or(self.0.len());
        let (word, rest) = self.0.split_at(end);
        self.0 = rest;
        word
    }

    /// An id between quotes.
    fn id(&mut self) -> Option<String> {
        self.skip("\"")?;
        let mut id = String::new();
        let mut letters = self.0.chars();
        loop {
            match letters.next()? {
                '"' => break,
                '\\' => id.push(unescaped(letters.next()?)?),
                letter => id.push(letter),
            }
        }
        self.0 = letters.as_str();
        Some(id)
    }

    /// Items between brackets, with commas between them.
    fn list<T>(&mut self, item: impl Fn(&mut Self) -> Option<T>) -> Option<Vec<T>> {
        self.skip("[")?;
        let mut items = Vec::new();
        while self.skip("]").is_none() {
            if !items.is_empty() {
                self.skip(",")?;
            }
            items.push(item(self)?);
        }
        Some(items)
    }
}

/// The answer that a line tells.
pub fn answer_of(line: &str) -> Option<Answer> {
    let mut line = Line(line);
    let decision = match line.word() {
        "allow" => Decision::Allow,
        "deny" => Decision::Deny,
        "open" => Decision::Open,
        _ => return None,
    };
    line.skip(" must=")?;
    let must = line.list(Line::id)?;
    line.skip(" may=")?;
    let may = line.list(Line::id)?;
    line.skip(" erring=")?;
    let erring = line.list(|line| {
        let id = line.id()?;
        line.skip(":")?;
        let kind = line.word();
        (!kind.is_empty()).then(|| (id, kind.to_owned()))
    })?;
    line.0.is_empty().then_some(Answer {
        decision,
        must,
        may,
        erring,
    })
}

/// The ids that the line of a `load` tells.
pub(crate) fn ids_of(line: &str) -> Option<Vec<String>> {
    let mut line = Line(line);
    line.skip("ok ")?;
    let ids = line.list(Line::id)?;
    line.0.is_empty().then_some(ids)
}

/// The word of a refusal.
pub(crate) fn refusal_of(line: &str) -> Option<&str> {
    let word = line.strip_prefix("refused ")?;
    let is_word = !word.is_empty() && word.bytes().all(|byte| byte.is_ascii_alphanumeric());
    is_word.then_some(word)
}
