"""A pass and the events done, in plain words."""
from explain.witness import TYPED_STATE, Witness


class Pass(Witness):
    def counts(self, states, steps, assertions, is_cut=False):
        """What a pass says, in the words of demand 2."""
        each = "it has no assertion" if assertions == 0 else f"{plural(assertions, 'assertion')} true initially and kept by every step"
        may = "These words pass, but they may not be the whole set: do not load them" if is_cut else "PASS: this set may be loaded"
        return [
            f"{may}. The set reads and its tables have a dependency order; no condition table has a gap or an overlap in any of the {states} "
            f"typed states, no mode or event table an overlap in any of the {steps} typed steps; {each}.",
            f"{TYPED_STATE}; a typed step is an input event that is enabled in one.",
        ]

    def start(self):
        initial = self.states().initial()
        return [f"It starts in state {initial}:", *self.state_lines(self.states().values(initial))]

    def events_done(self, done, start=None):
        """A line for each event done: what it altered, and what that altered."""
        if not done:
            return []
        states = self.states()
        before = states.values(states.initial() if start is None else start)
        lines = []
        for index, variable, _, state in done:
            after = states.values(state)
            line = f"event {index}: {self.change(variable, before[variable], after[variable])}"
            lines.append(f"{line}; then {self.changes(variable, before, after)}; state {state}")
            before = after
        return lines


def plural(count, noun):
    return f"the one {noun} is" if count == 1 else f"each of the {count} {noun}s is"
