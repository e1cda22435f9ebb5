"""Runs a plan many times in the world that its domain describes, with outcomes drawn by chance.

    python3 simulate.py DOMAIN PROBLEM PLAN [--runs K] [--seed N] [--steps M] [--pulgazer COMMAND]

Every outcome of an action is as likely as the others, and so is every initial state. The world is read from the picture
of the plan (`pulgazer draw`), so the plan may reach at most 400 states. COMMAND runs pulgazer; ./pulgazer without it.
"""
import argparse
import random
import re
import subprocess
import sys
from collections import Counter
from statistics import median

NODE = re.compile(r'^  n(\d+) \[shape=(\w+)(?: (peripheries=2|style=dashed))? label="(.*)"\];$')
STEP = re.compile(r'^  n(\d+) -> n(\d+) \[label="(.*) (\d+)"\];$')


def pick(chance, items):
    """One of the items. Every version of Python draws alike by random()."""
    return items[int(chance.random() * len(items))]


class World:
    """The states that a plan may reach, and the steps between them."""

    def __init__(self, picture):
        self.initial, self.goal, self.steps, self.states, self.contexts = [], set(), {}, {}, {}
        for line in picture.splitlines():
            node, step = NODE.match(line), STEP.match(line)
            if node:
                self.steps[int(node[1])] = {}
                lines = re.sub(r"\\(.)", lambda escaped: "\n" if escaped[1] == "n" else escaped[1], node[4]).split("\n")
                self.states[int(node[1])] = {line for line in lines if line.startswith("(")}
                self.contexts[int(node[1])] = next((int(line[8:]) for line in lines if line.startswith("context ")), 1)
                self.initial += [int(node[1])] if node[2] == "box" else []
                self.goal |= {int(node[1])} if node[3] == "peripheries=2" else set()
            elif step:
                self.steps[int(step[1])].setdefault(step[3], {})[int(step[4])] = int(step[2])

    def run(self, chance, most):
        """The steps of a run, as pairs of an action and an outcome, and whether it ended in the goal."""
        state, taken = pick(chance, self.initial), []
        while self.steps[state] and len(taken) < most:
            action = pick(chance, sorted(self.steps[state]))
            outcome = pick(chance, sorted(self.steps[state][action]))
            taken.append((action, outcome))
            state = self.steps[state][action][outcome]
        return taken, not self.steps[state] and state in self.goal


def main():
    parser = argparse.ArgumentParser()
    parser.add_argument("files", nargs=3, metavar="FILE")
    parser.add_argument("--runs", type=int, default=1000)
    parser.add_argument("--seed", type=int, default=1)
    parser.add_argument("--steps", type=int, default=10000)
    parser.add_argument("--pulgazer", metavar="COMMAND", default="./pulgazer")
    words = parser.parse_args()
    done = subprocess.run([words.pulgazer, "draw", *words.files], stdout=subprocess.PIPE, text=True)
    if done.returncode:
        return done.returncode
    world, chance = World(done.stdout), random.Random(words.seed)
    if not world.initial:
        print("no initial state")
        return 1
    runs = [world.run(chance, words.steps) for _ in range(words.runs)]
    lengths = [len(taken) for taken, _ in runs]
    outcomes = Counter(pair for taken, _ in runs for pair in taken)
    print(f"runs {len(runs)}, of which {sum(reached for _, reached in runs)} end in the goal")
    print(f"steps: {median(lengths):g} in the middle, {max(lengths)} at most")
    for (action, outcome), count in outcomes.most_common(3):
        print(f"{count} times {action} outcome {outcome}")
    return 0


if __name__ == "__main__":
    sys.exit(main())
