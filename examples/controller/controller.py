"""Runs a plan for examples/courier in a simulated world: python3 controller.py PLAN [SEED]

PLAN is a text of `mbp` or `pulgazer`, or a document of `pulgazer control --json`. A real robot puts its sensors into
`observe` and its motors into `act`."""
import random
import sys

from pulgazer import Controller


class Courier:
    """The world: rooms, a thing to deliver, and a door that may stay open on every way."""

    def __init__(self, chance):
        self.room, self.delivered, self.open, self.chance = "ward", False, False, chance

    def observe(self):
        facts = {"(delivered)": self.delivered, "(open)": self.open}
        return {f"(at {self.room})"} | {fluent for fluent, value in facts.items() if value}

    def act(self, action):
        words = action.strip("()").split()
        if words[0] == "go":
            self.room, self.open = words[2], self.open or self.chance.random() < 0.5
        self.delivered = self.delivered or words[0] == "deliver"
        self.open = self.open and words[0] != "close"


def main(file, seed=1):
    with open(file) as plan:
        controller = Controller.load(plan.read())
    world = Courier(random.Random(int(seed)))
    for step in range(1, 13):
        action = controller.act(world.observe())
        if action is None:
            break
        world.act(action)
        if not controller.observe(world.observe()):
            print("the world left the model")
            break
        print(f"step {step} {action} context {controller.context}")


if __name__ == "__main__":
    main(*sys.argv[1:])
