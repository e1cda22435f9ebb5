//! Runs a plan for examples/courier in a simulated world: `rustc -O controller.rs; ./controller PLAN [SEED]`
//!
//! PLAN is a text of `mbp` or `pulgazer`. A real robot puts its sensors into `observe` and its
//! motors into `act`.
use std::{collections::BTreeSet, env, fs};

/// The names of the true fluents.
type State = BTreeSet<String>;

/// A form of the text: a word, or a list.
enum Form {
    Word(String),
    List(Vec<Form>),
}

impl Form {
    fn parts(&self) -> &[Form] {
        match self {
            Form::List(parts) => parts,
            Form::Word(_) => &[],
        }
    }

    /// A list's text has one space between its parts.
    fn text(&self) -> String {
        match self {
            Form::Word(word) => word.clone(),
            Form::List(parts) => {
                let parts: Vec<String> = parts.iter().map(Form::text).collect();
                format!("({})", parts.join(" "))
            }
        }
    }
}

/// The forms up to the end of the text or of the list.
fn forms<'a>(words: &mut impl Iterator<Item = &'a str>) -> Vec<Form> {
    let mut found = Vec::new();
    while let Some(word) = words.next() {
        match word {
            ")" => break,
            "(" => found.push(Form::List(forms(words))),
            _ => found.push(Form::Word(word.to_lowercase())),
        }
    }
    found
}

/// The forms of a text, without its comments.
fn read(text: &str) -> Vec<Form> {
    let lines: Vec<&str> = text
        .lines()
        .filter_map(|line| line.split(';').next())
        .collect();
    let spaced = lines.join("\n").replace('(', " ( ").replace(')', " ) ");
    forms(&mut spaced.split_whitespace())
}

/// Whether a state has all literals of a list.
fn holds(literals: &Form, state: &State) -> bool {
    literals
        .parts()
        .iter()
        .all(|literal| match literal.parts() {
            [Form::Word(not), fluent @ Form::List(_)] if not == "not" => {
                !state.contains(&fluent.text())
            }
            _ => state.contains(&literal.text()),
        })
}

/// A rule: in a context and a state with these literals, an action and then the next context.
struct Rule<'a> {
    context: String,
    literals: &'a Form,
    action: String,
    next: Option<&'a Form>,
}

impl<'a> Rule<'a> {
    /// The rule of a form of a plan. In a table every rule is of context 1.
    fn read(parts: &'a [Form], is_table: bool) -> Rule<'a> {
        let first = if is_table { 1 } else { 2 };
        Rule {
            context: if is_table {
                "1".to_string()
            } else {
                parts[1].text()
            },
            literals: &parts[first],
            action: parts[first + 1].text(),
            next: parts.get(first + 2),
        }
    }

    /// The context after the action, by the state that it led to.
    fn context_after(&self, state: &State) -> Option<String> {
        match self.next {
            None => Some(self.context.clone()),
            Some(Form::Word(context)) => Some(context.clone()),
            Some(Form::List(cases)) => {
                let case = cases.iter().find(|case| holds(&case.parts()[0], state));
                case.map(|case| case.parts()[1].text())
            }
        }
    }
}

/// The world: rooms, a thing to deliver, and a door that may stay open on every way.
struct Courier {
    room: &'static str,
    delivered: bool,
    open: bool,
    seed: u64,
}

impl Courier {
    fn observe(&self) -> State {
        let facts = [
            (self.room, true),
            ("(delivered)", self.delivered),
            ("(open)", self.open),
        ];
        facts
            .iter()
            .filter(|(_, value)| *value)
            .map(|(fluent, _)| fluent.to_string())
            .collect()
    }

    fn act(&mut self, action: &str) {
        match action {
            "(deliver ward)" => self.delivered = true,
            "(close)" => self.open = false,
            "(go ward store)" => self.go("(at store)"),
            "(go store ward)" => self.go("(at ward)"),
            _ => {}
        }
    }

    fn go(&mut self, room: &'static str) {
        self.room = room;
        self.seed = self
            .seed
            .wrapping_mul(6364136223846793005)
            .wrapping_add(1442695040888963407);
        self.open |= self.seed >> 63 == 1;
    }
}

fn main() {
    let arguments: Vec<String> = env::args().collect();
    let text = fs::read_to_string(&arguments[1]).expect("the plan's file");
    let seed = arguments
        .get(2)
        .and_then(|seed| seed.parse().ok())
        .unwrap_or(1);
    let forms = read(&text);
    let plan = forms
        .iter()
        .find(|form| form.text().starts_with("(plan "))
        .expect("a plan")
        .parts();
    let is_table = plan[1].text() == "table";
    let rules: Vec<Rule> = plan[3..]
        .iter()
        .map(|rule| Rule::read(rule.parts(), is_table))
        .collect();

    let mut world = Courier {
        room: "(at ward)",
        delivered: false,
        open: false,
        seed,
    };
    let mut context = "1".to_string();
    for step in 1..=12 {
        let state = world.observe();
        let found = rules
            .iter()
            .find(|rule| rule.context == context && holds(rule.literals, &state));
        let Some(rule) = found else { break };
        world.act(&rule.action);
        let Some(next) = rule.context_after(&world.observe()) else {
            break;
        };
        context = next;
        println!("step {step} {} context {context}", rule.action);
    }
}
