"""One state of a set, as --state asks for it: its values, its enabled events and where each leads, and a run from there.

The values of the state, the state that each event leads to and those of the run are what the proved entries values, step and run answer; what
else a step changes on the way is worked out from the state that it leads to."""
from explain import words as w
from explain.program import RUN, STEP, UNWRITTEN, VALUES, Verdict, asked_of, checked
from explain.refusals import CAUSES, Explainer
from explain.source import as_bytes
from explain.witness import Witness

# What check refuses a set with that reads and has a dependency order, so that it has states.
OF_STATES = range(10, 15)


class State(Witness):
    def __init__(self, source, number, left_out):
        """With the number of the file's events, which were left out."""
        super().__init__(source)
        self.number, self.left_out = number, left_out
        self.check = checked(as_bytes(self.set), 0)
        self.values, self.refused, self.leads, self.ran = None, None, [], None
        if self.check.passed or self.check.refused[0] in OF_STATES:
            self.look()

    def look(self):
        """Asks for the values, and if the state has them for each step and the run. A set that check refuses is not run."""
        said, numbers, lent = asked_of(VALUES, self.set, self.number, len(self.reading.variables))
        if said == "REFUSE":
            self.refused = numbers
            return
        self.values = lent
        self.leads = [(event, asked_of(STEP, self.set, self.number, w.input_event(*event))) for event in self.enabled()]
        if self.check.passed and self.events:
            self.ran = asked_of(RUN, self.set, self.number, 0, len(self.events), *self.events)

    def enabled(self):
        """Each input with each value that it does not have."""
        return [
            (variable, value)
            for variable, each in enumerate(self.reading.variables)
            if each.sort == w.MONITORED
            for value in range(each.size)
            if value != self.values[variable]
        ]

    def verdict(self):
        """The line of check, and those of the run as scrcheck prints them of a run from the initial state."""
        lines = list(self.check.lines)
        if self.check.passed and self.refused:
            lines.append(refuse_line(self.refused))
        if self.ran:
            said, numbers, lent = self.ran
            done = [state for state in lent if state != UNWRITTEN]
            for index, (word, state) in enumerate(zip(self.events, done)):
                lines.append(f"{index} {w.field(word, 27, 20)} {w.field(word, 7, 0)} {state}")
            lines += [refuse_line(numbers)] if said == "REFUSE" else []
        return Verdict(lines)

    def lines(self):
        left_out = f"The events of the file, {self.left_out:,}, are for a run from the initial state and are left out."
        return ([left_out] if self.left_out else []) + self.values_lines()

    def values_lines(self):
        if self.refused and not self.check.passed:
            return [f"What is asked of state {self.number} is refused too.", *Explainer(self.source).refusal(self.refused[0], self.refused[1:])]
        if self.values is None:
            return []
        lines = [f"State {self.number}:", *self.state_lines(self.values), "Enabled events, and where each leads:"]
        lines += [f"  {self.input(*event)}: {self.lead(event, *answer)}" for event, answer in self.leads]
        return lines if self.leads else lines[:-1] + ["No event is enabled here: the set has no input."]

    def lead(self, event, said, numbers, _):
        if said == "REFUSE":
            return f"no next state. {self.cause(numbers)}"
        after = self.states().values(numbers[0])
        return f"state {numbers[0]}; {self.changes(event[0], self.values, after)}"

    @staticmethod
    def cause(numbers):
        return f"{CAUSES[numbers[0]][0].upper()}{CAUSES[numbers[0]][1:]} ({refuse_line(numbers)})."


def refuse_line(numbers):
    return " ".join(["REFUSE", *map(str, numbers)])
