//! A planner over the twin of the diagrams, which bench/twin builds: the searches of `reach_plan`, `cyclic_plan` and `context_plan`,
//! without text.
//!
//!     twin FILE weak|strong|cyclic [NODES]
//!     twin FILE until|patrol [NODES]
//!
//! FILE is a grounded problem: `fluents N` and N lines with their names; `actions N` and for each `action OUTCOMES NAME`,
//! `exec CONDITION` and its outcomes, each `outcome N` and N changes, a literal and a condition; `init N` and the facts;
//! `entries N`, each `entry N` of `alt N` and literals; `goal CONDITION`. For `until`, the place of `goal` has `stages N` with a guard
//! and a target each, and `keep CONDITION`; for `patrol`, `visits N` and conditions. bench/patrols writes such files. A literal is the number of its fluent, counted from 1,
//! negative where it is deleted. A condition is `T`, `F`, a fluent counted from 0, `! C`, `& N C ..` or `| N C ..`.
//! The fluents stand in the order of their first objects. NODES is 16777216 if left out.
//!
//! It prints the answer, the rounds, the operations, the nodes at the end, the collections, the most nodes that one left, and the
//! seconds of the search.

mod dd_cache;
mod dd_nodes;
mod dd_ops;
mod stand_in;

use dd_nodes::{DdErr, Ref};
use dd_ops::Ops;
use std::collections::BTreeMap;
use std::time::Instant;

const MOST_NODES: u32 = 16_777_216;

enum Condition {
    Constant(bool),
    Fluent(usize),
    Not(Box<Condition>),
    All(Vec<Condition>),
    Any(Vec<Condition>),
}

struct Change {
    fluent: usize,
    positive: bool,
    condition: Condition,
}

struct GroundAction {
    exec: Condition,
    outcomes: Vec<Vec<Change>>,
}

struct Stage {
    guard: Condition,
    target: Condition,
}

enum Goal {
    State(Condition),
    Chain(Vec<Stage>, Condition),
    Patrol(Vec<Condition>),
}

struct Problem {
    fluents: Vec<String>,
    actions: Vec<GroundAction>,
    facts: Vec<usize>,
    entries: Vec<Vec<Vec<i64>>>,
    goal: Goal,
}

/// The words of a file, one after another.
struct Words {
    words: Vec<String>,
    place: usize,
}

impl Words {
    fn next(&mut self) -> String {
        self.place += 1;
        self.words[self.place - 1].clone()
    }

    fn number(&mut self) -> i64 {
        self.next().parse().expect("a number")
    }

    fn want(&mut self, word: &str) {
        assert_eq!(self.next(), word);
    }

    /// A word, a number, and so many parts.
    fn list<T>(&mut self, word: &str, part: impl Fn(&mut Words) -> T) -> Vec<T> {
        self.want(word);
        let count = self.number();
        (0..count).map(|_| part(self)).collect()
    }

    fn conditions(&mut self) -> Vec<Condition> {
        let count = self.number();
        (0..count).map(|_| self.condition()).collect()
    }

    fn condition(&mut self) -> Condition {
        let word = self.next();
        match word.as_str() {
            "T" => Condition::Constant(true),
            "F" => Condition::Constant(false),
            "!" => Condition::Not(Box::new(self.condition())),
            "&" => Condition::All(self.conditions()),
            "|" => Condition::Any(self.conditions()),
            _ => Condition::Fluent(word.parse().expect("a fluent")),
        }
    }

    fn goal(&mut self) -> Goal {
        match self.words[self.place].as_str() {
            "visits" => Goal::Patrol(self.list("visits", Words::condition)),
            "stages" => {
                let stages = self.list("stages", |words| Stage {
                    guard: words.condition(),
                    target: words.condition(),
                });
                self.want("keep");
                Goal::Chain(stages, self.condition())
            }
            _ => {
                self.want("goal");
                Goal::State(self.condition())
            }
        }
    }

    fn change(&mut self) -> Change {
        let literal = self.number();
        Change {
            fluent: literal.unsigned_abs() as usize - 1,
            positive: literal > 0,
            condition: self.condition(),
        }
    }

    fn action(&mut self) -> GroundAction {
        self.want("action");
        let outcomes = self.number();
        self.want("exec");
        GroundAction {
            exec: self.condition(),
            outcomes: (0..outcomes)
                .map(|_| self.list("outcome", Words::change))
                .collect(),
        }
    }
}

fn read(path: &str) -> Problem {
    let text = std::fs::read_to_string(path).expect("a file");
    let mut lines = text.lines();
    let count: usize = lines
        .next()
        .unwrap()
        .trim_start_matches("fluents ")
        .parse()
        .unwrap();
    let fluents = lines.by_ref().take(count).map(str::to_string).collect();
    let words = lines.flat_map(|line| {
        // An action's name is of any words, and is left out.
        let most = if line.starts_with("action ") {
            2
        } else {
            usize::MAX
        };
        line.split_whitespace().take(most).map(str::to_string)
    });
    let mut words = Words {
        words: words.collect(),
        place: 0,
    };
    let problem = Problem {
        fluents,
        actions: words.list("actions", Words::action),
        facts: words.list("init", |words| words.number() as usize),
        entries: words.list("entries", |words| {
            words.list("entry", |words| words.list("alt", Words::number))
        }),
        goal: words.goal(),
    };
    assert_eq!(
        words.place,
        words.words.len(),
        "a problem with an invariant is not read"
    );
    problem
}

/// The variable of each fluent: by the first object, and then by the fluent.
fn variables(fluents: &[String]) -> Vec<u32> {
    let key = |name: &str| {
        let object = name.split_whitespace().nth(1).unwrap_or("").to_string();
        let digits: String = object.chars().filter(char::is_ascii_digit).collect();
        let letters: String = object
            .chars()
            .filter(|letter| !letter.is_ascii_digit())
            .collect();
        (letters, digits.parse::<u64>().unwrap_or(0))
    };
    let mut order: Vec<usize> = (0..fluents.len()).collect();
    order.sort_by_key(|&fluent| (key(&fluents[fluent]), fluent));
    let mut variables = vec![0; fluents.len()];
    for (variable, fluent) in order.into_iter().enumerate() {
        variables[fluent] = variable as u32;
    }
    variables
}

/// A set in a slot, until it is ended.
type Slot = usize;

enum Operation<'a> {
    Variable(u32),
    Not(Slot),
    And(Slot, Slot),
    Or(Slot, Slot),
    Minus(Slot, Slot),
    Cofactor(Slot, u32, bool),
    Subst(Slot, &'a [(u32, Slot)]),
}

/// Sets in slots, as `dd_sets` keeps them: a table that is full is collected, and the operation is tried once more.
struct Sets {
    ops: Ops,
    slots: Vec<Option<Ref>>,
    free: Vec<Slot>,
    operations: u64,
    collections: u64,
    most_left: u32,
}

impl Sets {
    fn number(&self, slot: Slot) -> Ref {
        self.slots[slot].expect("a live slot")
    }

    fn store(&mut self, number: Ref) -> Slot {
        match self.free.pop() {
            Some(slot) => {
                self.slots[slot] = Some(number);
                slot
            }
            None => {
                self.slots.push(Some(number));
                self.slots.len() - 1
            }
        }
    }

    fn constant(&mut self, value: bool) -> Slot {
        self.store(Ref(value as u32))
    }

    fn copy(&mut self, slot: Slot) -> Slot {
        self.store(self.number(slot))
    }

    fn end(&mut self, slot: Slot) {
        self.slots[slot] = None;
        self.free.push(slot);
    }

    fn is_empty(&self, slot: Slot) -> bool {
        self.number(slot).0 == 0
    }

    fn are_same(&self, a: Slot, b: Slot) -> bool {
        self.number(a) == self.number(b)
    }

    fn compute(&mut self, operation: &Operation) -> Result<Ref, DdErr> {
        match *operation {
            Operation::Variable(variable) => self.ops.var(variable),
            Operation::Not(a) => self.ops.not(self.number(a)),
            Operation::And(a, b) => self.ops.and(self.number(a), self.number(b)),
            Operation::Or(a, b) => self.ops.or(self.number(a), self.number(b)),
            Operation::Minus(a, b) => self.ops.minus(self.number(a), self.number(b)),
            Operation::Cofactor(a, variable, value) => {
                self.ops.cofactor(self.number(a), variable, value)
            }
            Operation::Subst(a, map) => {
                let numbers: Vec<(u32, Ref)> = map
                    .iter()
                    .map(|entry| (entry.0, self.number(entry.1)))
                    .collect();
                self.ops.subst(self.number(a), &numbers)
            }
        }
    }

    fn collect(&mut self) {
        let live: Vec<Slot> = (0..self.slots.len())
            .filter(|&slot| self.slots[slot].is_some())
            .collect();
        let mut roots: Vec<Ref> = live.iter().map(|&slot| self.number(slot)).collect();
        self.ops.collect(&mut roots);
        for (slot, root) in live.into_iter().zip(roots) {
            self.slots[slot] = Some(root);
        }
        self.collections += 1;
        self.most_left = self.most_left.max(self.ops.table().len());
    }

    fn make(&mut self, operation: Operation) -> Slot {
        self.operations += 1;
        let mut answer = self.compute(&operation);
        if answer.is_err() {
            self.collect();
            answer = self.compute(&operation);
        }
        match answer {
            Ok(number) => self.store(number),
            Err(_) => {
                println!(
                    "full collections {} left {}",
                    self.collections,
                    self.ops.table().len()
                );
                std::process::exit(5);
            }
        }
    }

    /// The answer of an operation in the place of a slot.
    fn replace(&mut self, slot: Slot, operation: Operation) -> Slot {
        let made = self.make(operation);
        self.end(slot);
        made
    }

    /// A copy of a set in the place of a slot.
    fn put(&mut self, slot: Slot, from: Slot) -> Slot {
        let copy = self.copy(from);
        self.end(slot);
        copy
    }
}

struct ActionSets {
    exec: Slot,
    /// For each outcome the variables that it changes, with the sets of their next values.
    outcomes: Vec<Vec<(u32, Slot)>>,
}

struct Encoded {
    sets: Sets,
    variables: Vec<u32>,
    actions: Vec<ActionSets>,
    initial: Slot,
    goal: Slot,
}

impl Encoded {
    fn of_literal(&mut self, fluent: usize, positive: bool) -> Slot {
        let mut literal = self.sets.make(Operation::Variable(self.variables[fluent]));
        if !positive {
            literal = self.sets.replace(literal, Operation::Not(literal));
        }
        literal
    }

    fn of_parts(&mut self, parts: &[Condition], is_all: bool) -> Slot {
        let mut set = self.sets.constant(is_all);
        for part in parts {
            let other = self.of(part);
            let operation = if is_all {
                Operation::And(set, other)
            } else {
                Operation::Or(set, other)
            };
            set = self.sets.replace(set, operation);
            self.sets.end(other);
        }
        set
    }

    fn of(&mut self, condition: &Condition) -> Slot {
        match condition {
            Condition::Constant(value) => self.sets.constant(*value),
            Condition::Fluent(fluent) => self.of_literal(*fluent, true),
            Condition::Not(part) => {
                let mut set = self.of(part);
                set = self.sets.replace(set, Operation::Not(set));
                set
            }
            Condition::All(parts) => self.of_parts(parts, true),
            Condition::Any(parts) => self.of_parts(parts, false),
        }
    }

    fn add_action(&mut self, action: &GroundAction) {
        let exec = self.of(&action.exec);
        let outcomes = action
            .outcomes
            .iter()
            .map(|changes| self.next_values(changes))
            .collect();
        self.actions.push(ActionSets { exec, outcomes });
    }

    fn next_values(&mut self, changes: &[Change]) -> Vec<(u32, Slot)> {
        let mut made: BTreeMap<usize, [Slot; 2]> = BTreeMap::new();
        for change in changes {
            let set = self.of(&change.condition);
            let both = made
                .entry(change.fluent)
                .or_insert_with(|| [self.sets.constant(false), self.sets.constant(false)]);
            let mut place = both[change.positive as usize];
            place = self.sets.replace(place, Operation::Or(place, set));
            both[change.positive as usize] = place;
            self.sets.end(set);
        }
        let mut values = Vec::new();
        for (fluent, [deleted, added]) in made {
            let mut value = self.of_literal(fluent, true);
            value = self.sets.replace(value, Operation::Minus(value, deleted));
            value = self.sets.replace(value, Operation::Or(value, added));
            self.sets.end(deleted);
            self.sets.end(added);
            values.push((self.variables[fluent], value));
        }
        values
    }

    fn add_initial(&mut self, problem: &Problem) {
        let mut by_variable: Vec<usize> = (0..problem.fluents.len()).collect();
        by_variable.sort_by_key(|&fluent| std::cmp::Reverse(self.variables[fluent]));
        for fluent in by_variable {
            let literal = self.of_literal(fluent, problem.facts.contains(&fluent));
            self.initial = self
                .sets
                .replace(self.initial, Operation::And(literal, self.initial));
            self.sets.end(literal);
        }
        for entry in &problem.entries {
            let mut all = self.sets.constant(false);
            for alternative in entry {
                let states = self.with_literals(alternative);
                all = self.sets.replace(all, Operation::Or(all, states));
                self.sets.end(states);
            }
            self.sets.end(self.initial);
            self.initial = all;
        }
    }

    /// The initial states so far with some literals applied, of which an added fluent counts.
    fn with_literals(&mut self, literals: &[i64]) -> Slot {
        let mut values: BTreeMap<usize, bool> = BTreeMap::new();
        for literal in literals {
            *values
                .entry(literal.unsigned_abs() as usize - 1)
                .or_insert(false) |= *literal > 0;
        }
        let mut states = self.sets.copy(self.initial);
        for (fluent, value) in values {
            let high = self
                .sets
                .make(Operation::Cofactor(states, self.variables[fluent], true));
            states = self.sets.replace(
                states,
                Operation::Cofactor(states, self.variables[fluent], false),
            );
            states = self.sets.replace(states, Operation::Or(states, high));
            self.sets.end(high);
            let literal = self.of_literal(fluent, value);
            states = self.sets.replace(states, Operation::And(states, literal));
            self.sets.end(literal);
        }
        states
    }

    /// Where an action can be executed and all its outcomes lead to one side of a set.
    fn on_side(&mut self, action: usize, is_inside: bool, target: Slot) -> Slot {
        let mut rest = self.sets.copy(self.actions[action].exec);
        for outcome in &self.actions[action].outcomes {
            if self.sets.is_empty(rest) {
                return rest;
            }
            let led = self.sets.make(Operation::Subst(target, outcome));
            let operation = if is_inside {
                Operation::And(rest, led)
            } else {
                Operation::Minus(rest, led)
            };
            rest = self.sets.replace(rest, operation);
            self.sets.end(led);
        }
        rest
    }

    fn strong(&mut self, action: usize, target: Slot) -> Slot {
        self.on_side(action, true, target)
    }

    fn weak(&mut self, action: usize, target: Slot) -> Slot {
        if self.actions[action].outcomes.len() == 1 {
            return self.strong(action, target);
        }
        let mut states = self.on_side(action, false, target);
        states = self
            .sets
            .replace(states, Operation::Minus(self.actions[action].exec, states));
        states
    }

    fn covers_initial(&mut self, set: Slot) -> bool {
        let outside = self.sets.make(Operation::Minus(self.initial, set));
        let covers = self.sets.is_empty(outside);
        self.sets.end(outside);
        covers
    }
}

/// A step that changed something: an action's hits were joined, or the next layer was taken.
#[derive(Clone, Copy)]
enum Step {
    Grow(usize),
    Advance,
}

/// Where each action leads into a layer: by all that it can be executed in, or by its pairs.
struct Search {
    is_strong: bool,
    pairs: Option<Vec<Slot>>,
}

impl Search {
    fn hits(&self, encoded: &mut Encoded, action: usize, layer: Slot) -> Slot {
        let mut hits = if self.is_strong {
            encoded.strong(action, layer)
        } else {
            encoded.weak(action, layer)
        };
        if let Some(pairs) = &self.pairs {
            hits = encoded
                .sets
                .replace(hits, Operation::And(hits, pairs[action]));
        }
        hits
    }

    /// All that an action can ever lead from.
    fn most(&self, encoded: &Encoded, action: usize) -> Slot {
        match &self.pairs {
            Some(pairs) => pairs[action],
            None => encoded.actions[action].exec,
        }
    }

    /// Layers from the goal back until nothing is new, or until `stops` says so: the last one, and the steps.
    fn spread(
        &self,
        encoded: &mut Encoded,
        stops: impl Fn(&mut Encoded, Slot) -> bool,
    ) -> (Slot, Vec<Step>) {
        let mut steps = Vec::new();
        let mut spent = vec![false; encoded.actions.len()];
        let mut layer = encoded.sets.copy(encoded.goal);
        while !stops(encoded, layer) {
            let mut next = encoded.sets.copy(layer);
            for action in 0..spent.len() {
                if spent[action] {
                    continue;
                }
                let hits = self.hits(encoded, action, layer);
                spent[action] = encoded.sets.are_same(hits, self.most(encoded, action));
                let grown = encoded.sets.make(Operation::Or(next, hits));
                encoded.sets.end(hits);
                if !encoded.sets.are_same(grown, next) {
                    next = encoded.sets.put(next, grown);
                    steps.push(Step::Grow(action));
                }
                encoded.sets.end(grown);
            }
            let is_last = encoded.sets.are_same(next, layer);
            encoded.sets.end(layer);
            layer = next;
            if is_last {
                break;
            }
            steps.push(Step::Advance);
        }
        (layer, steps)
    }

    /// The steps once more, with what each action takes.
    fn take(&self, encoded: &mut Encoded, steps: &[Step]) {
        let mut layer = encoded.sets.copy(encoded.goal);
        let mut next = encoded.sets.copy(layer);
        let mut takers: Vec<Slot> = encoded
            .actions
            .iter()
            .map(|_| encoded.sets.constant(false))
            .collect();
        for step in steps {
            let Step::Grow(action) = *step else {
                layer = encoded.sets.put(layer, next);
                continue;
            };
            let hits = self.hits(encoded, action, layer);
            let new = encoded.sets.make(Operation::Minus(hits, next));
            takers[action] = encoded
                .sets
                .replace(takers[action], Operation::Or(takers[action], new));
            next = encoded.sets.replace(next, Operation::Or(next, hits));
            encoded.sets.end(new);
            encoded.sets.end(hits);
        }
    }
}

fn rounds_of(steps: &[Step]) -> usize {
    steps
        .iter()
        .filter(|step| matches!(step, Step::Advance))
        .count()
}

/// Weak and strong plans: whether there is one, and the rounds.
fn plan_by_layers(encoded: &mut Encoded, is_strong: bool) -> (bool, usize) {
    let search = Search {
        is_strong,
        pairs: None,
    };
    let (layer, steps) = search.spread(encoded, Encoded::covers_initial);
    let is_found = encoded.covers_initial(layer);
    if is_found {
        search.take(encoded, &steps);
    }
    (is_found, rounds_of(&steps))
}

/// Keeps the pairs that do not lead out of the states that are left: whether that loses any.
fn keep_pairs(encoded: &mut Encoded, pairs: &mut [Slot], left: Slot) -> bool {
    let mut loses = false;
    for (action, place) in pairs.iter_mut().enumerate() {
        *place = encoded.sets.replace(*place, Operation::And(*place, left));
        if encoded.sets.is_empty(*place) {
            continue;
        }
        let mut kept = encoded.strong(action, left);
        kept = encoded.sets.replace(kept, Operation::And(kept, *place));
        loses |= !encoded.sets.are_same(kept, *place);
        *place = encoded.sets.put(*place, kept);
        encoded.sets.end(kept);
    }
    loses
}

/// Strong cyclic plans: whether there is one, and the rounds of all spreads.
fn plan_cyclic(encoded: &mut Encoded) -> (bool, usize) {
    let outside = encoded.sets.make(Operation::Not(encoded.goal));
    let pairs = (0..encoded.actions.len())
        .map(|_| encoded.sets.copy(outside))
        .collect();
    let mut left = encoded.sets.constant(true);
    let mut search = Search {
        is_strong: false,
        pairs: Some(pairs),
    };
    keep_pairs(encoded, search.pairs.as_mut().unwrap(), left);
    let mut rounds = 0;
    loop {
        let (near, steps) = search.spread(encoded, |_, _| false);
        rounds += rounds_of(&steps);
        let is_last = encoded.sets.are_same(near, left);
        encoded.sets.end(left);
        left = near;
        if !encoded.covers_initial(left) {
            return (false, rounds);
        }
        if is_last || !keep_pairs(encoded, search.pairs.as_mut().unwrap(), left) {
            search.take(encoded, &steps);
            return (true, rounds);
        }
    }
}

/// The search for until-chains and patrol goals. The counts are of rounds and of preimages.
struct Rounds {
    spent: Vec<bool>,
    rounds: usize,
    preimages: usize,
}

impl Rounds {
    fn lead_inside(&mut self, encoded: &mut Encoded, guard: Slot, near: Slot, action: usize) -> Slot {
        self.preimages += 1;
        let hits = encoded.strong(action, near);
        encoded.sets.replace(hits, Operation::And(guard, hits))
    }

    /// Whether an action is spent: noted as such, or from now on.
    fn find_spent(&mut self, encoded: &mut Encoded, next: Slot, action: usize) -> bool {
        if !self.spent[action] {
            let exec = encoded.actions[action].exec;
            let met = encoded.sets.make(Operation::And(exec, next));
            self.spent[action] = encoded.sets.are_same(met, exec);
            encoded.sets.end(met);
        }
        self.spent[action]
    }

    /// One round that keeps the states of a set with an action that leads into it.
    fn shrink(&mut self, encoded: &mut Encoded, guard: Slot, near: Slot) -> Slot {
        self.rounds += 1;
        let mut next = encoded.sets.constant(false);
        for action in 0..encoded.actions.len() {
            if encoded.sets.are_same(next, near) {
                break;
            }
            let mut hits = self.lead_inside(encoded, guard, near, action);
            hits = encoded.sets.replace(hits, Operation::And(near, hits));
            next = encoded.sets.replace(next, Operation::Or(next, hits));
            encoded.sets.end(hits);
        }
        next
    }

    fn shrink_all(&mut self, encoded: &mut Encoded, guard: Slot, set: Slot) -> Slot {
        let mut near = encoded.sets.copy(set);
        loop {
            let next = self.shrink(encoded, guard, near);
            let is_last = encoded.sets.are_same(next, near);
            encoded.sets.end(near);
            near = next;
            if is_last {
                return near;
            }
        }
    }

    /// Rounds that add the states with an action that leads into the set, and the steps that changed something.
    fn grow_all(&mut self, encoded: &mut Encoded, guard: Slot, set: Slot) -> (Slot, Vec<Step>) {
        self.spent = vec![false; encoded.actions.len()];
        let mut steps = Vec::new();
        let mut near = encoded.sets.copy(set);
        loop {
            self.rounds += 1;
            let mut next = encoded.sets.copy(near);
            for action in 0..encoded.actions.len() {
                if self.find_spent(encoded, next, action) {
                    continue;
                }
                let mut hits = self.lead_inside(encoded, guard, near, action);
                hits = encoded.sets.replace(hits, Operation::Or(next, hits));
                if !encoded.sets.are_same(hits, next) {
                    next = encoded.sets.put(next, hits);
                    steps.push(Step::Grow(action));
                }
                encoded.sets.end(hits);
            }
            steps.push(Step::Advance);
            let is_last = encoded.sets.are_same(next, near);
            encoded.sets.end(near);
            near = next;
            if is_last {
                return (near, steps);
            }
        }
    }

    /// The steps once more, with what each action takes.
    fn climb(
        &mut self,
        encoded: &mut Encoded,
        (guard, set): (Slot, Slot),
        steps: &[Step],
        takers: &mut [Slot],
    ) {
        let mut near = encoded.sets.copy(set);
        let mut next = encoded.sets.copy(set);
        for step in steps {
            let Step::Grow(action) = *step else {
                near = encoded.sets.put(near, next);
                continue;
            };
            let hits = self.lead_inside(encoded, guard, near, action);
            let new = encoded.sets.make(Operation::Minus(hits, next));
            if !encoded.sets.is_empty(new) {
                takers[action] = encoded
                    .sets
                    .replace(takers[action], Operation::Or(takers[action], new));
                next = encoded.sets.replace(next, Operation::Or(next, hits));
            }
            encoded.sets.end(new);
            encoded.sets.end(hits);
        }
        encoded.sets.end(next);
        encoded.sets.end(near);
    }

    /// Gives each of some states the first action that leads into a set.
    fn share(
        &mut self,
        encoded: &mut Encoded,
        guard: Slot,
        near: Slot,
        states: Slot,
        takers: &mut [Slot],
    ) {
        let mut rest = encoded.sets.copy(states);
        for action in 0..takers.len() {
            if encoded.sets.is_empty(rest) {
                break;
            }
            let mut hits = self.lead_inside(encoded, guard, near, action);
            hits = encoded.sets.replace(hits, Operation::And(rest, hits));
            takers[action] = encoded
                .sets
                .replace(takers[action], Operation::Or(takers[action], hits));
            rest = encoded.sets.replace(rest, Operation::Minus(rest, hits));
            encoded.sets.end(hits);
        }
        encoded.sets.end(rest);
    }
}

fn no_takers(encoded: &mut Encoded) -> Vec<Slot> {
    (0..encoded.actions.len())
        .map(|_| encoded.sets.constant(false))
        .collect()
}

/// Plans for until-chains: whether there is one.
fn plan_until(encoded: &mut Encoded, work: &mut Rounds, stages: &[Stage], keep: &Condition) -> bool {
    let anywhere = encoded.sets.constant(true);
    let kept = encoded.of(keep);
    let end = work.shrink_all(encoded, anywhere, kept);
    let mut win = encoded.sets.copy(end);
    let mut places = Vec::new();
    for stage in stages.iter().rev() {
        let mut met = encoded.of(&stage.target);
        met = encoded.sets.replace(met, Operation::And(met, win));
        let guard = encoded.of(&stage.guard);
        let (near, steps) = work.grow_all(encoded, guard, met);
        win = encoded.sets.put(win, near);
        encoded.sets.end(near);
        places.push((guard, met, steps));
    }
    if !encoded.covers_initial(win) {
        return false;
    }
    for (guard, met, steps) in places.into_iter().rev() {
        let mut takers = no_takers(encoded);
        work.climb(encoded, (guard, met), &steps, &mut takers);
    }
    let mut takers = no_takers(encoded);
    work.share(encoded, anywhere, end, end, &mut takers);
    true
}

/// Plans for patrol goals: whether there is one.
fn plan_patrol(encoded: &mut Encoded, work: &mut Rounds, visits: &[Condition]) -> bool {
    let mut left = encoded.sets.constant(true);
    loop {
        let stay = work.shrink(encoded, left, left);
        let mut kept = encoded.sets.copy(left);
        let mut places = Vec::new();
        for visit in visits {
            let mut met = encoded.of(visit);
            met = encoded.sets.replace(met, Operation::And(stay, met));
            let (near, steps) = work.grow_all(encoded, left, met);
            kept = encoded.sets.replace(kept, Operation::And(kept, near));
            encoded.sets.end(near);
            places.push((met, steps));
        }
        encoded.sets.end(stay);
        if !encoded.covers_initial(kept) {
            return false;
        }
        if encoded.sets.are_same(kept, left) {
            for (met, steps) in places {
                let mut takers = no_takers(encoded);
                work.share(encoded, left, left, met, &mut takers);
                work.climb(encoded, (left, met), &steps, &mut takers);
            }
            return true;
        }
        for (met, _) in places {
            encoded.sets.end(met);
        }
        encoded.sets.end(left);
        left = kept;
    }
}

fn main() {
    let words: Vec<String> = std::env::args().collect();
    let problem = read(&words[1]);
    let limit = words
        .get(3)
        .map_or(MOST_NODES, |word| word.parse().expect("a number of nodes"));
    let ops =
        Ops::new(stand_in::Global, problem.fluents.len().max(1) as u32, limit).expect("memory");
    let mut sets = Sets {
        ops,
        slots: Vec::new(),
        free: Vec::new(),
        operations: 0,
        collections: 0,
        most_left: 0,
    };
    let (initial, goal) = (sets.constant(true), sets.constant(true));
    let mut encoded = Encoded {
        sets,
        variables: variables(&problem.fluents),
        actions: Vec::new(),
        initial,
        goal,
    };
    encoded.add_initial(&problem);
    if let Goal::State(goal) = &problem.goal {
        encoded.goal = encoded.of(goal);
    }
    for action in &problem.actions {
        encoded.add_action(action);
    }
    let start = Instant::now();
    let (is_found, rounds) = match words[2].as_str() {
        "weak" => plan_by_layers(&mut encoded, false),
        "strong" => plan_by_layers(&mut encoded, true),
        "cyclic" => plan_cyclic(&mut encoded),
        "until" | "patrol" => {
            let mut work = Rounds {
                spent: Vec::new(),
                rounds: 0,
                preimages: 0,
            };
            let is_found = match &problem.goal {
                Goal::Chain(stages, keep) => plan_until(&mut encoded, &mut work, stages, keep),
                Goal::Patrol(visits) => plan_patrol(&mut encoded, &mut work, visits),
                Goal::State(_) => panic!("no chain and no visits"),
            };
            println!("preimages {}", work.preimages);
            (is_found, work.rounds)
        }
        other => panic!("no class {other}"),
    };
    let sets = &encoded.sets;
    println!(
        "{} rounds {} operations {} nodes {} collections {} left {} seconds {:.3}",
        if is_found { "plan" } else { "no plan" },
        rounds,
        sets.operations,
        sets.ops.table().len(),
        sets.collections,
        sets.most_left,
        start.elapsed().as_secs_f64()
    );
}
