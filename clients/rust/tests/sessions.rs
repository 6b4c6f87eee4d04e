//! Tests of the client, over the archive that `CEDAR_ARCHIVE` names.

use cedar_session::{
    Answer, BODY_LIMIT, Commands, DEPTH, DEPTH_MAX, Decision, Entity, Error, Fault, Listed, Part, Place, Question,
    Record, Session, SessionThread, Value, Verb, answer_of, library_version,
};
use std::thread::{self, Builder};

const POLICIES: &str = "permit(principal in Group::\"staff\", action, resource) when { context.hour < 18 };";
const ANY: &str = "permit(principal, action, resource);";

fn entity(kind: &str, id: &str) -> Entity {
    Entity::new(kind, id).expect("a type")
}

fn alice() -> Entity {
    entity("User", "alice")
}

/// A question of which nothing else is known, with an empty context.
fn of(principal: &Entity) -> Question {
    Question::new(principal, Part::Unknown, Part::Unknown)
}

fn known(key: &str, value: impl Into<Value>) -> Record {
    Record::from([(key.to_owned(), value.into())])
}

fn deep(depth: usize) -> String {
    format!(
        "permit(principal, action, resource) when {{ {}true{} }};",
        "(".repeat(depth),
        ")".repeat(depth)
    )
}

fn refused<T>(word: &str) -> Result<T, Error> {
    Err(Error::Refused(word.to_owned()))
}

/// A session on a thread with the stack of a program's first one.
fn on_a_thread(test: impl FnOnce(Session) -> Result<(), Error> + Send + 'static) -> Result<(), Error> {
    let thread = Builder::new()
        .stack_size(8 << 20)
        .spawn(|| test(Session::open(DEPTH)?));
    thread.expect("a thread").join().expect("no panic")
}

fn is(answer: &Answer, decision: Decision, must: &[&str], may: &[&str]) {
    assert_eq!(
        (answer.decision, &*answer.must, &*answer.may),
        (decision, &*strings(must), &*strings(may))
    );
}

fn strings(list: &[&str]) -> Vec<String> {
    list.iter().map(|id| id.to_string()).collect()
}

fn asks(session: &mut impl Commands) -> Result<(), Error> {
    session.put(&[Listed::new(&alice()).parent(&entity("Group", "staff"))])?;
    assert_eq!(session.load(POLICIES)?, ["policy0"]);
    let question = of(&alice());
    let answer = session.ask(&question.clone().known("hour", 9))?;
    is(&answer, Decision::Allow, &["policy0"], &["policy0"]);
    let answer = session.ask(&question.clone().unknown_context())?;
    is(&answer, Decision::Open, &[], &["policy0"]);
    let answer = session.tell(&known("context", known("hour", 19)))?;
    is(&answer, Decision::Deny, &[], &[]);
    let answer = session.ask(&question.clone().known("hour", Value::Unknown("late".to_owned())))?;
    is(&answer, Decision::Open, &[], &["policy0"]);
    is(
        &session.tell(&known("late", 9))?,
        Decision::Allow,
        &["policy0"],
        &["policy0"],
    );
    let answer = session.ask(&question.known("hour", true))?;
    assert_eq!(answer.erring, [("policy0".to_owned(), "TypeError".to_owned())]);
    Ok(())
}

#[test]
fn questions() -> Result<(), Error> {
    on_a_thread(|mut session| asks(&mut session))
}

#[test]
fn types_of_what_is_unknown() -> Result<(), Error> {
    let mut session = SessionThread::open(DEPTH)?;
    session.load("permit(principal is User, action, resource);")?;
    let of_type = |kind: &str| Question::new(Part::OfType(kind.to_owned()), Part::Unknown, Part::Unknown);
    is(
        &session.ask(&of_type("User"))?,
        Decision::Allow,
        &["policy0"],
        &["policy0"],
    );
    is(&session.ask(&of_type("Robot"))?, Decision::Deny, &[], &[]);
    assert_eq!(session.ask(&of_type("in")), Err(Error::Type("in".to_owned())));
    let action = Question::new(Part::Unknown, Part::OfType("Action".to_owned()), Part::Unknown);
    assert_eq!(session.ask(&action), Err(Error::Type("Action".to_owned())));
    Ok(())
}

#[test]
fn functions_of_types() -> Result<(), Error> {
    let policy = "permit(principal, action, resource) when { ip(context.address).isInRange(ip(\"10.0.0.0/8\")) };";
    on_a_thread(move |mut session| {
        session.load(policy)?;
        let answer = session.ask(&of(&alice()).known("address", "10.1.2.3"))?;
        is(&answer, Decision::Allow, &["policy0"], &["policy0"]);
        let answer = session.ask(&of(&alice()).known("address", "11.1.2.3"))?;
        is(&answer, Decision::Deny, &[], &[]);
        let mut bare = Session::open_without_types(DEPTH)?;
        assert_eq!(bare.load(policy), refused("Text"));
        Ok(())
    })
}

#[test]
fn what_a_user_typed_stays_a_name() -> Result<(), Error> {
    let mut session = SessionThread::open(DEPTH)?;
    session.load("permit(principal == User::\"root\", action, resource);")?;
    session.load("permit(principal, action, resource) when { context.admin };")?;
    for name in [
        "root\"}//",
        "a\", context: {admin: true}}//",
        "x\\",
        "root\"\n}//",
        "",
    ] {
        let question = of(&entity("User", name)).known("admin", false).known(name, name);
        is(&session.ask(&question)?, Decision::Deny, &[], &[]);
    }
    for kind in ["", "User::", "::U", "a-b", "1a", "A::if", "U::\"a\"//", " U", "é"] {
        assert_eq!(Entity::new(kind, "a"), Err(Error::Type(kind.to_owned())));
    }
    Ok(())
}

#[test]
fn templates() -> Result<(), Error> {
    let mut session = SessionThread::open(DEPTH)?;
    session.load("permit(principal == ?principal, action, resource);")?;
    let link = "a \"link\"] may=[\\\n";
    session.link("policy0", link, Some(&alice()), None)?;
    assert_eq!(session.ask(&of(&alice()))?.must, [link]);
    assert_eq!(session.remove_template("policy0"), refused("HasLinks"));
    session.unlink(link)?;
    session.remove_template("policy0")
}

#[test]
fn edits() -> Result<(), Error> {
    let mut session = SessionThread::open(DEPTH)?;
    session.add(&[Listed::new(&alice())])?;
    assert_eq!(
        session.add(&[Listed::new(&alice()).attr("n", 1)]),
        refused("Duplicate")
    );
    let unknown = Listed::new(&alice()).attr("n", Value::Unknown("x".to_owned()));
    assert_eq!(session.put(&[unknown]), refused("NotAValue"));
    session.remove(&[alice()])?;
    assert_eq!(session.load(ANY)?, ["policy0"]);
    session.remove_static("policy0")?;
    assert_eq!(session.remove_static("policy0"), refused("NoSuchPolicy"));
    Ok(())
}

#[test]
fn refusals() -> Result<(), Error> {
    on_a_thread(|mut session| {
        assert_eq!(session.last_line()?, "");
        assert_eq!(session.load("permit"), refused("Text"));
        assert_eq!(session.last_line()?, "refused Text");
        assert_eq!(session.tell(&Record::new()), refused("NoQuestion"));
        assert_eq!(session.load(&deep(256)), refused("Depth"));
        assert_eq!(session.load(&" ".repeat(BODY_LIMIT + 1)), Err(Error::TooLong));
        assert_eq!(
            session.line(Verb::Load, &" ".repeat(BODY_LIMIT + 1)),
            Err(Error::TooLong)
        );
        assert!(session.load(&" ".repeat(BODY_LIMIT))?.is_empty());
        Ok(())
    })
}

/// What is wrong in a text of policies, and in another body, and that nothing has changed by asking.
fn explains(why: &mut dyn FnMut(Verb, &str) -> Result<Vec<Fault>, Error>) -> Result<(), Error> {
    let faults = why(Verb::Load, "permit(principal, action, resource)")?;
    let end = Place {
        line: 1,
        column: 36,
    };
    assert_eq!(faults.len(), 1);
    assert_eq!(faults[0].places, Some((end, end)));
    assert_eq!(
        (&*faults[0].kind, &*faults[0].message),
        ("UnrecognizedEof", "unexpected end of input")
    );
    assert_eq!(
        faults[0].expected.as_deref(),
        Some("expected `;` or identifier")
    );
    assert_eq!(faults[0].help.as_deref(), Some("a policy ends with `;`"));
    assert_eq!(why(Verb::Load, ANY)?, []);
    let faults = why(Verb::Remove, "3")?;
    assert_eq!(
        (faults.len(), &*faults[0].kind, &*faults[0].message),
        (1, "Shape", "the body is no list of entities")
    );
    assert_eq!(
        why(Verb::Load, &" ".repeat(BODY_LIMIT + 1)),
        Err(Error::TooLong)
    );
    Ok(())
}

#[test]
fn faults() -> Result<(), Error> {
    on_a_thread(|mut session| {
        explains(&mut |verb, body| session.why(verb, body))?;
        assert_eq!(session.load(ANY)?, ["policy0"]);
        Ok(())
    })?;
    let mut session = SessionThread::open(DEPTH)?;
    explains(&mut |verb, body| session.why(verb, body))
}

#[test]
fn version() {
    assert!(library_version().starts_with("0.2."));
}

#[test]
fn long_lines() -> Result<(), Error> {
    let mut session = SessionThread::open(DEPTH)?;
    assert_eq!(session.load(&ANY.repeat(1000))?.len(), 1000);
    assert_eq!(session.ask(&of(&alice()))?.must.len(), 1000);
    Ok(())
}

#[test]
fn threads() -> Result<(), Error> {
    let mut moved = SessionThread::open(DEPTH)?;
    thread::spawn(move || asks(&mut moved))
        .join()
        .expect("no panic")?;
    let sessions: Vec<_> = (0..4)
        .map(|_| thread::spawn(|| asks(&mut SessionThread::open(DEPTH)?)))
        .collect();
    for session in sessions {
        session.join().expect("no panic")?;
    }
    Ok(())
}

/// Neither the least nor a great limit of depth ends the process: a stack that doesn't carry it is told.
#[test]
fn stacks() -> Result<(), Error> {
    for depth in [8, DEPTH, DEPTH_MAX] {
        let mut session = SessionThread::open(depth)?;
        assert_eq!(session.load(&deep(depth as usize - 1))?, ["policy0"]);
    }
    for depth in [DEPTH_MAX + 1, u32::MAX] {
        assert!(matches!(SessionThread::open(depth), Err(Error::Depth(_))));
        assert!(matches!(Session::open(depth), Err(Error::Depth(_))));
    }
    // (a thread may get the stack that another left, up to four times as large)
    for depth in [DEPTH, DEPTH_MAX] {
        let small = Builder::new()
            .stack_size(512 << 10)
            .spawn(move || Session::open(depth).err());
        let why = small.expect("a thread").join().expect("no panic");
        assert!(matches!(why, Some(Error::Stack(_))));
    }
    Ok(())
}

/// A session whose lines are these, whatever it is asked.
struct Says(String);

impl Commands for Says {
    fn line(&mut self, _: Verb, _: &str) -> Result<String, Error> {
        Ok(self.0.clone())
    }
}

/// What each command makes of a line.
fn commands_of(line: &str) -> [Result<(), Error>; 4] {
    let mut says = Says(line.to_owned());
    [
        says.put(&[]),
        says.load("").map(drop),
        says.ask(&of(&alice())).map(drop),
        says.tell(&Record::new()).map(drop),
    ]
}

#[test]
fn lines_that_answer_nothing() {
    let whole = "allow must=[\"policy0\"] may=[\"policy0\"] erring=[\"a\":TypeError]";
    let cut = (0..whole.len()).map(|end| &whole[..end]);
    let wrong = [
        "fault TooLong",
        "end",
        "",
        "o",
        "refuse",
        "refused",
        "refused ",
        "refused a b",
        "ok\n",
        "ok ",
        "ok [",
        "ok [\"a\",]",
        "ok [\"a\\x\"]",
        "ok []x",
    ];
    for line in wrong.into_iter().chain(cut) {
        for outcome in commands_of(line) {
            assert_eq!(outcome, Err(Error::Line(line.to_owned())));
        }
    }
    let [put, load, ask, tell] = commands_of("ok");
    assert!(put.is_ok() && load.is_err() && ask.is_err() && tell.is_err());
    let [put, load, ask, tell] = commands_of("ok [\"a\"]");
    assert!(put.is_err() && load.is_ok() && ask.is_err() && tell.is_err());
    let [put, load, ask, tell] = commands_of(whole);
    assert!(put.is_err() && load.is_err() && ask.is_ok() && tell.is_ok());
    for outcome in commands_of("refused Text") {
        assert_eq!(outcome, refused("Text"));
    }
}

/// A sequence of numbers that looks random.
struct Numbers(u64);

impl Numbers {
    fn below(&mut self, bound: u64) -> u64 {
        self.0 ^= self.0 << 13;
        self.0 ^= self.0 >> 7;
        self.0 ^= self.0 << 17;
        self.0 % bound
    }

    fn text(&mut self) -> String {
        const LETTERS: &str = "\"\\\n\r\t\0',[]:{}()?/ab é€😀\u{2028}\u{7f}\u{feff}";
        let letters: Vec<char> = LETTERS.chars().collect();
        (0..self.below(6))
            .map(|_| letters[self.below(letters.len() as u64) as usize])
            .collect()
    }

    fn value(&mut self, depth: u32) -> Value {
        match self.below(if depth < 3 { 6 } else { 4 }) {
            0 => (self.below(2) == 0).into(),
            1 => [i64::MIN, i64::MAX, 0, -1, self.0 as i64][self.below(5) as usize].into(),
            2 => self.text().into(),
            3 => entity("A::B", &self.text()).into(),
            4 => (0..self.below(4))
                .map(|_| self.value(depth + 1))
                .collect::<Vec<_>>()
                .into(),
            _ => (0..self.below(4))
                .map(|_| (self.text(), self.value(depth + 1)))
                .collect::<Record>()
                .into(),
        }
    }
}

/// What a value is, each letter by its number and lists from behind.
fn expression(value: &Value) -> String {
    let spelled = |text: &str| {
        text.chars()
            .map(|it| format!("\\u{{{:x}}}", it as u32))
            .collect::<String>()
    };
    let joined = |mut items: Vec<String>| {
        items.reverse();
        items.join(", ")
    };
    match value {
        Value::Bool(value) => value.to_string(),
        Value::Long(value) => value.to_string(),
        Value::String(value) => format!("\"{}\"", spelled(value)),
        Value::Set(values) => format!("[{}]", joined(values.iter().map(expression).collect())),
        Value::Record(record) => {
            let fields = record
                .iter()
                .map(|(key, value)| format!("\"{}\" : {}", spelled(key), expression(value)));
            format!("{{{}}}", joined(fields.collect()))
        }
        Value::Entity(entity) => format!("{}::\"{}\"", entity.kind(), spelled(entity.id())),
        other => format!("{other:?}"),
    }
}

#[test]
fn values_are_read_back() -> Result<(), Error> {
    let mut numbers = Numbers(0x9E37_79B9_7F4A_7C15);
    for _ in 0..20 {
        let values: Vec<Value> = (0..500).map(|_| numbers.value(0)).collect();
        let policy = |(at, value): (usize, &Value)| {
            format!(
                "permit(principal, action, resource) when {{ context.k{at} == {} }};",
                expression(value)
            )
        };
        let mut session = SessionThread::open(DEPTH)?;
        let ids = session.load(&values.iter().enumerate().map(policy).collect::<String>())?;
        let context = values.iter().cloned().enumerate();
        let question = context.fold(of(&alice()), |question, (at, value)| {
            question.known(&format!("k{at}"), value)
        });
        assert_eq!(session.ask(&question)?.must.len(), ids.len());
    }
    Ok(())
}

#[test]
fn entities_are_read_back() -> Result<(), Error> {
    let mut numbers = Numbers(7);
    let mut session = SessionThread::open(DEPTH)?;
    session.load("permit(principal == ?principal, action, resource in ?resource);")?;
    for at in 0..300 {
        let (who, place, folder) = (
            numbers.text(),
            entity("P", &numbers.text()),
            entity("F", &numbers.text()),
        );
        session.put(&[Listed::new(&place).parent(&folder).attr("n", 1).tag("t", "x")])?;
        session.link(
            "policy0",
            &format!("l{at}"),
            Some(&entity("U", &who)),
            Some(&folder),
        )?;
        let question = Question::new(entity("U", &who), Part::Unknown, &place);
        assert_eq!(session.ask(&question)?.must, [format!("l{at}")]);
        let other = Question::new(entity("U", &(who + "a")), Part::Unknown, &place);
        assert!(session.ask(&other)?.must.is_empty());
        session.unlink(&format!("l{at}"))?;
    }
    Ok(())
}

/// No line panics, whatever stands in it.
#[test]
fn any_line_is_read() {
    let mut numbers = Numbers(1);
    let pieces = [
        "allow", "deny ", "open", " must=", " may=", " erring=", "[", "]", "\"", "\\", ",", ":", "a", "é",
        "ok ", "refused ",
    ];
    for _ in 0..100_000 {
        let line: String = (0..numbers.below(24))
            .map(|_| pieces[numbers.below(pieces.len() as u64) as usize])
            .collect();
        let _ = answer_of(&line);
        let _ = commands_of(&line);
    }
}
