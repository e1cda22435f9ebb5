"""Runs a plan of Pulgazer: what to do in each state. One file, Python's standard library alone.

    controller = Controller.load(text)   what `pulgazer control --json` printed, or the text of a plan
    action = controller.act(state)       the action to take, or None where the plan ends
    controller.observe(state)            the state after the action: goes on to the next context, and tells whether the
                                         action may lead there; if not, the world has left the model

A state is a set of the true fluents, named as `mbp ground` lists them: {"(at kitchen)"}. A document knows what each action
asks and does: an action whose precondition fails isn't taken. The text of a plan knows neither, so every state is expected.
"""
import json
import re


def read(text):
    """The lists of a text, as Python lists of words and lists."""
    open_lists = [[]]
    for word in re.findall(r"[()]|[^\s();]+", re.sub(r";[^\n]*", "", text.lower())):
        if word == "(":
            open_lists.append([])
        elif word == ")":
            done = open_lists.pop()
            open_lists[-1].append(done)
        else:
            open_lists[-1].append(word)
    return open_lists[0]


def name_of(form):
    return f"({' '.join(form)})"


def literals_of(forms):
    """The fluents that are asked for, each with the value that it has to have. One that is asked for with both values is never met."""
    return [(name_of(form[1] if form[0] == "not" else form), form[0] != "not") for form in forms]


class Rule:
    """In a context and a state with these literals: an action, cases of the next context, and of the action its precondition
    and its outcomes, where they are known."""

    def __init__(self, context, literals, action, cases, precondition=None, outcomes=None):
        self.context, self.literals, self.action, self.cases = context, literals, action, cases
        self.precondition, self.outcomes = precondition, outcomes

    def may_act(self, state):
        return self.precondition is None or is_true(self.precondition, state)

    def may_lead(self, before, after):
        return self.outcomes is None or any(changed(before, outcome) == after for outcome in self.outcomes)


def holds(literals, state):
    return all((fluent in state) == value for fluent, value in literals)


def is_true(condition, state):
    """Whether a condition of a document holds: the name of a fluent, or {"not": ..}, {"and": [..]}, {"or": [..]}."""
    if isinstance(condition, str):
        return condition in state
    ((word, parts),) = condition.items()
    if word == "not":
        return not is_true(parts, state)
    return (all if word == "and" else any)(is_true(part, state) for part in parts)


def changed(state, outcome):
    """The state after an outcome. Conditions are read in the state before; what is both added and deleted is added."""
    changes = [change for change in outcome if is_true(change["if"], state)]
    deleted = {fluent for change in changes for fluent in change["deletes"]}
    return (state - deleted) | {fluent for change in changes for fluent in change["adds"]}


def rules_of_document(document):
    for rule in document["rules"]:
        yield Rule(rule["context"], list(rule["literals"].items()), rule["action"], [([], rule["next"])], rule["precondition"], rule["outcomes"])


def rules_of_text(text):
    plan = next(form for form in read(text) if form and form[0] == "plan")
    for rule in plan[3:]:
        context, cube, action, after = [1, *rule[1:], "1"] if plan[1] == "table" else rule[1:]
        cases = [(literals_of(case[0]), int(case[1])) for case in after] if isinstance(after, list) else [([], int(after))]
        yield Rule(int(context), literals_of(cube), name_of(action), cases)


class Controller:
    """A plan that is being run. It begins in context 1."""

    def __init__(self, rules, fluents=None):
        self.rules, self.fluents = list(rules), fluents
        self.context, self.rule, self.before = 1, None, None

    @classmethod
    def load(cls, text):
        if text.lstrip().startswith("{"):
            document = json.loads(text)
            return cls(rules_of_document(document), set(document["fluents"]))
        return cls(rules_of_text(text))

    def look(self, state):
        unknown = set(state) - self.fluents if self.fluents is not None else set()
        if unknown:
            raise ValueError(f"no fluent of the plan: {', '.join(sorted(unknown))}")

    def act(self, state):
        """The action of the first rule that holds in this state and context; None where no rule does, or where the action's
        precondition fails."""
        self.look(state)
        rule = next((rule for rule in self.rules if rule.context == self.context and holds(rule.literals, state)), None)
        self.rule, self.before = (rule, set(state)) if rule and rule.may_act(state) else (None, None)
        return self.rule and self.rule.action

    def observe(self, state):
        """Goes on to the context that the last rule names for the state after its action. False where no outcome of the action
        leads to this state: the world has left the model, and the plan promises nothing any more."""
        self.look(state)
        if self.rule is None:
            return True
        self.context = next((context for literals, context in self.rule.cases if holds(literals, state)), None)
        expected = self.rule.may_lead(self.before, set(state))
        self.rule = self.before = None
        return expected
