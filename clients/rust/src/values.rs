//! Values of the language, and the texts that stand for them. What a user typed is quoted here, and nowhere else.

use crate::commands::Error;
use std::collections::BTreeMap;

/// The keys of a record, with their values.
pub type Record = BTreeMap<String, Value>;

/// Words that no part of a type may be.
const RESERVED: [&str; 10] = [
    "true", "false", "if", "then", "else", "in", "like", "has", "is", "__cedar",
];

/// An entity's name: its type and its id.
#[derive(Clone, Debug, PartialEq, Eq, PartialOrd, Ord, Hash)]
pub struct Entity {
    kind: String,
    id: String,
}

impl Entity {
    /// The entity of a type, as `User` or `Shop::User`, under any id. [`Error::Type`] where none is named so.
    pub fn new(kind: &str, id: &str) -> Result<Entity, Error> {
        Ok(Entity {
            kind: checked(kind)?.to_owned(),
            id: id.to_owned(),
        })
    }

    /// Its type.
    pub fn kind(&self) -> &str {
        &self.kind
    }

    pub fn id(&self) -> &str {
        &self.id
    }

    fn write(&self, text: &mut String) {
        text.push_str(&self.kind);
        text.push_str("::");
        write_quoted(&self.id, text);
    }
}

/// The type, where entities may have one that is named so.
fn checked(kind: &str) -> Result<&str, Error> {
    let is_part = |part: &str| {
        let letters = part
            .bytes()
            .all(|byte| byte.is_ascii_alphanumeric() || byte == b'_');
        letters && !part.is_empty() && !part.as_bytes()[0].is_ascii_digit() && !RESERVED.contains(&part)
    };
    match kind.split("::").all(is_part) {
        true => Ok(kind),
        false => Err(Error::Type(kind.to_owned())),
    }
}

/// A value of the language.
#[derive(Clone, Debug, PartialEq, Eq)]
#[non_exhaustive]
pub enum Value {
    Bool(bool),
    Long(i64),
    String(String),
    Set(Vec<Value>),
    Record(Record),
    Entity(Entity),
    /// What isn't known yet, under the name by which it is told: in the context of a question alone.
    Unknown(String),
}

impl Value {
    fn write(&self, text: &mut String) {
        match self {
            Value::Bool(value) => write_shown(value, text),
            Value::Long(value) => write_shown(value, text),
            Value::String(value) => write_quoted(value, text),
            Value::Set(values) => write_list(values, Value::write, text),
            Value::Record(record) => write_record(record, text),
            Value::Entity(entity) => entity.write(text),
            Value::Unknown(name) => {
                text.push_str("unknown(");
                write_quoted(name, text);
                text.push(')');
            }
        }
    }
}

macro_rules! value_from {
    ($($kind:ty => $case:ident),*) => {
        $(impl From<$kind> for Value {
            fn from(value: $kind) -> Value {
                Value::$case(value.into())
            }
        })*
    };
}

value_from!(bool => Bool, i64 => Long, i32 => Long, u32 => Long, String => String, &str => String, Record => Record, Entity => Entity);

impl From<&Entity> for Value {
    fn from(entity: &Entity) -> Value {
        Value::Entity(entity.clone())
    }
}

impl<T: Into<Value>> From<Vec<T>> for Value {
    fn from(values: Vec<T>) -> Value {
        Value::Set(values.into_iter().map(Into::into).collect())
    }
}

/// An entity as it is added or put: its name, parents, attributes and tags.
#[derive(Clone, Debug, PartialEq, Eq)]
pub struct Listed {
    name: Entity,
    parents: Vec<Entity>,
    attrs: Record,
    tags: Record,
}

impl Listed {
    /// One without parents, attributes and tags.
    pub fn new(name: &Entity) -> Listed {
        Listed {
            name: name.clone(),
            parents: Vec::new(),
            attrs: Record::new(),
            tags: Record::new(),
        }
    }

    pub fn parent(mut self, parent: &Entity) -> Listed {
        self.parents.push(parent.clone());
        self
    }

    pub fn attr(mut self, key: &str, value: impl Into<Value>) -> Listed {
        self.attrs.insert(key.to_owned(), value.into());
        self
    }

    pub fn tag(mut self, key: &str, value: impl Into<Value>) -> Listed {
        self.tags.insert(key.to_owned(), value.into());
        self
    }

    fn write(&self, text: &mut String) {
        text.push_str("{uid:");
        self.name.write(text);
        text.push_str(",parents:");
        write_list(&self.parents, Entity::write, text);
        text.push_str(",attrs:");
        write_record(&self.attrs, text);
        text.push_str(",tags:");
        write_record(&self.tags, text);
        text.push('}');
    }
}

/// The principal, the action or the resource of a question.
#[derive(Clone, Debug, PartialEq, Eq)]
#[non_exhaustive]
pub enum Part {
    Known(Entity),
    /// Nothing is known of it yet.
    Unknown,
    /// Its type alone is known: of a principal or a resource.
    OfType(String),
}

impl From<Entity> for Part {
    fn from(entity: Entity) -> Part {
        Part::Known(entity)
    }
}

impl From<&Entity> for Part {
    fn from(entity: &Entity) -> Part {
        Part::Known(entity.clone())
    }
}

/// A question. What isn't known has to be said; the context is empty at first.
#[derive(Clone, Debug, PartialEq, Eq)]
pub struct Question {
    principal: Part,
    action: Part,
    resource: Part,
    context: Option<Record>,
}

impl Question {
    pub fn new(principal: impl Into<Part>, action: impl Into<Part>, resource: impl Into<Part>) -> Question {
        Question {
            principal: principal.into(),
            action: action.into(),
            resource: resource.into(),
            context: Some(Record::new()),
        }
    }

    /// With a value in its context.
    pub fn known(mut self, key: &str, value: impl Into<Value>) -> Question {
        let context = self.context.get_or_insert_with(Record::new);
        context.insert(key.to_owned(), value.into());
        self
    }

    /// With a context of which nothing is known.
    pub fn unknown_context(mut self) -> Question {
        self.context = None;
        self
    }

    pub(crate) fn text(&self) -> Result<String, Error> {
        let mut text = String::from("{");
        for (slot, part) in [
            ("principal", &self.principal),
            ("action", &self.action),
            ("resource", &self.resource),
        ] {
            match part {
                Part::Known(entity) => {
                    text.push_str(slot);
                    text.push(':');
                    entity.write(&mut text);
                    text.push(',');
                }
                Part::Unknown => {}
                Part::OfType(kind) if slot != "action" => {
                    text.push_str(slot);
                    text.push_str("_type:");
                    write_quoted(checked(kind)?, &mut text);
                    text.push(',');
                }
                Part::OfType(kind) => return Err(Error::Type(kind.clone())),
            }
        }
        match &self.context {
            Some(context) => {
                text.push_str("context:");
                write_record(context, &mut text);
            }
            None => drop(text.ends_with(',').then(|| text.pop())),
        }
        text.push('}');
        Ok(text)
    }
}

/// The string literal of a text.
pub fn quoted(text: &str) -> String {
    let mut literal = String::new();
    write_quoted(text, &mut literal);
    literal
}

pub(crate) fn listed(entities: &[Listed]) -> String {
    let mut text = String::new();
    write_list(entities, Listed::write, &mut text);
    text
}

pub(crate) fn names_of(entities: &[Entity]) -> String {
    let mut text = String::new();
    write_list(entities, Entity::write, &mut text);
    text
}

pub(crate) fn record_of(record: &Record) -> String {
    let mut text = String::new();
    write_record(record, &mut text);
    text
}

pub(crate) fn link_of(
    template: &str,
    id: &str,
    principal: Option<&Entity>,
    resource: Option<&Entity>,
) -> String {
    let mut text = format!("{{template:{},id:{}", quoted(template), quoted(id));
    for (slot, entity) in [("principal", principal), ("resource", resource)] {
        if let Some(entity) = entity {
            text.push(',');
            text.push_str(slot);
            text.push(':');
            entity.write(&mut text);
        }
    }
    text + "}"
}

fn write_shown(value: &impl ToString, text: &mut String) {
    text.push_str(&value.to_string());
}

fn write_quoted(value: &str, text: &mut String) {
    text.push('"');
    for letter in value.chars() {
        match letter {
            '"' => text.push_str("\\\""),
            '\\' => text.push_str("\\\\"),
            '\n' => text.push_str("\\n"),
            '\r' => text.push_str("\\r"),
            '\t' => text.push_str("\\t"),
            '\0' => text.push_str("\\0"),
            other => text.push(other),
        }
    }
    text.push('"');
}

fn write_list<T>(items: &[T], write: impl Fn(&T, &mut String), text: &mut String) {
    text.push('[');
    for (at, item) in items.iter().enumerate() {
        if at > 0 {
            text.push(',');
        }
        write(item, text);
    }
    text.push(']');
}

fn write_record(record: &Record, text: &mut String) {
    text.push('{');
    for (at, (key, value)) in record.iter().enumerate() {
        if at > 0 {
            text.push(',');
        }
        write_quoted(key, text);
        text.push(':');
        value.write(text);
    }
    text.push('}');
}
