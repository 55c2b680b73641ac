#!/usr/bin/env python3
"""Stops, or fails, each stroke of each unit's disk in a play of three units, and compares what the program writes with an
independent machine, which is written down here from the rules of a step and of servers.

Usage: strokes [PROGRAM]   (crates/mentor/out/mentor, if none is named)
The machine keeps for each server its admissions, what each turn sealed, and what came, and shows the central run of
the merged list. How a doubt turns out is free: the program has to write the text of one outcome. The last line is
'N passed, M failed'. Ends with 1 if one failed, and with 2 if there is no program.
"""
import os
import re
import subprocess
import sys

TOP = os.path.join(os.path.dirname(os.path.abspath(__file__)), "..")


# ---- charts

class Chart:
    """A chart that is accepted, read from its text."""

    def __init__(self, text):
        self.tokens = tokens_of(text)
        self.units, self.events, self.vars, self.acts, self.states, self.transitions = [], ["fault"], [], [], [], []
        self.event_units, self.store, self.act_units, self.outputs = [None], [], [], []
        self.kinds, self.parents, self.state_units = [], [], []
        self.take(), self.take(), self.take()
        while self.tokens:
            getattr(self, "read_" + {"or": "state", "from": "transition"}.get(self.tokens[0], self.tokens[0]))()

    def take(self, *wanted):
        return self.tokens.pop(0) if not wanted or self.tokens[:1] and self.tokens[0] in wanted else None

    def read_unit(self):
        self.take()
        self.units.append(self.take())
        self.take()

    def read_event(self):
        self.take()
        self.events.append(self.take())
        self.event_units.append(self.units.index(self.take()) if self.take("at") else None)
        self.take()

    def read_var(self):
        self.take()
        self.vars.append(self.take())
        self.take(), self.take(), self.take()
        self.store.append(self.literal())
        self.take()

    def literal(self):
        return value(self.take() + self.take()) if self.tokens[0] == "-" else value(self.take())

    def read_activity(self):
        self.take()
        self.acts.append(self.take())
        self.take()
        self.act_units.append(self.units.index(self.take()))
        self.outputs.append([])
        while self.take("gives", ","):
            self.outputs[-1].append(self.vars.index(self.take()))
        self.take()

    def read_state(self, parent=None):
        number = len(self.states)
        self.kinds.append(self.take())
        self.states.append(self.take())
        self.parents.append(parent)
        self.take()
        self.state_units.append(self.units.index(self.take()))
        if not self.take(";"):
            self.take("{")
            while not self.take("}"):
                self.read_state(number)

    def read_transition(self):
        self.take()
        source = self.states.index(self.take())
        self.take()
        target = self.states.index(self.take())
        event = self.events.index(self.take()) if self.take("on") else None
        guard = self.chain(0) if self.take("if") else ("value", True)
        actions = []
        while self.take("do", ","):
            word = self.take()
            if word == "raise":
                actions.append((word, self.events.index(self.take())))
            elif word == "start":
                actions.append((word, self.acts.index(self.take())))
            else:
                self.take(":=")
                actions.append(("assign", self.vars.index(word), self.chain(0)))
        self.take()
        self.transitions.append((source, target, event, guard, actions))

    CHAINS = (("or",), ("and",), ("=", "!=", "<", "<=", ">", ">="), ("+", "-"), ("*", "/", "%"))

    def chain(self, depth):
        if depth == len(self.CHAINS):
            return self.atom()
        if depth == 2 and self.take("not"):
            return ("not", self.chain(depth))
        left = self.chain(depth + 1)
        while self.tokens[0] in self.CHAINS[depth]:
            left = (self.take(), left, self.chain(depth + 1))
        return left

    def atom(self):
        word = self.take()
        if word == "-":
            return ("neg", self.atom())
        if word == "(":
            inner = self.chain(0)
        elif word in ("in", "count", "done"):
            self.take()
            inner = (word, (self.states if word == "in" else self.acts).index(self.take()))
        else:
            return ("var", self.vars.index(word)) if word in self.vars else ("value", value(word))
        self.take()
        return inner

    def children(self, state):
        return [s for s, parent in enumerate(self.parents) if parent == state]

    def above(self, state):
        """The proper ancestors of a state, the nearest first."""
        while self.parents[state] is not None:
            state = self.parents[state]
            yield state

    def scope(self, t):
        source, target = self.transitions[t][:2]
        return next(s for s in self.above(source) if s in self.above(target) and self.kinds[s] == "or")

    def default(self, state):
        below = self.children(state)[:1] if self.kinds[state] == "or" else self.children(state)
        return {state}.union(*map(self.default, below))

    def entry(self, state, target):
        """The states that are in below this one, and it, as the target is entered."""
        if state == target:
            return self.default(state)
        towards = next(s for s in self.children(state) if s == target or s in self.above(target))
        others = [] if self.kinds[state] == "or" else [s for s in self.children(state) if s != towards]
        return {state}.union(self.entry(towards, target), *map(self.default, others))

    def walk(self, state, inside, enabled):
        """The states that are in below this one after a step, and it, and what fires there."""
        here = [t for t in enabled if self.scope(t) == state] if self.kinds[state] == "or" else []
        if here:
            child = next(s for s in self.children(state) if s == self.transitions[here[0]][1] or s in self.above(self.transitions[here[0]][1]))
            return {state} | self.entry(child, self.transitions[here[0]][1]), [here[0]]
        states, fired = {state}, []
        for child in self.children(state):
            if child in inside:
                more, also = self.walk(child, inside, enabled)
                states, fired = states | more, fired + also
        return states, fired

    def knows(self, unit, var):
        """Whether a unit knows a variable: its part reads it or writes it, or an activity of the unit has it as an output."""
        reads = any(var in self.outputs[a] for a in range(len(self.acts)) if self.act_units[a] == unit)
        for t, (source, _, _, guard, actions) in enumerate(self.transitions):
            own = self.state_units[source] == unit
            concerns = any(self.scope(t) in self.above(s) for s in range(len(self.states)) if self.state_units[s] == unit)
            assigned = [action for action in actions if action[0] == "assign"]
            reads |= concerns and ("var", var) in parts(guard)
            reads |= own and any(var == a[1] or ("var", var) in parts(a[2]) for a in assigned)
        return reads


def tokens_of(text):
    return [word for word in re.findall(r'#.*|"[^"]*"|:=|!=|<=|>=|\w+|[^\s\w]', text) if word[0] != "#"]


def value(word):
    return {"true": True, "false": False}[word] if word in ("true", "false") else word[1:-1] if word[0] == '"' else int(word)


def text_of(val):
    return str(val).lower() if isinstance(val, bool) else f'"{val}"' if isinstance(val, str) else str(val)


def parts(expr):
    return [expr] + [p for part in expr[1:] if isinstance(part, tuple) for p in parts(part)]


# ---- the central run

class Central:
    """The state of a chart that runs in one place."""

    def __init__(self, chart):
        self.chart, self.inside, self.store, self.raised, self.taken = chart, chart.default(0), list(chart.store), set(), 0
        self.items = [[] for _ in chart.units]  # for each unit: the activity of each item, and whether it is closed

    def value(self, expr):
        word, *rest = expr
        if word == "value":
            return rest[0]
        if word == "var":
            return self.store[rest[0]]
        if word == "in":
            return rest[0] in self.inside
        if word == "count":
            return sum(act == rest[0] and not closed for items in self.items for act, closed in items)
        if word == "done":
            return rest[0] in self.done
        left = self.value(rest[0])
        if word in ("not", "neg"):
            return not left if word == "not" else whole(-left)
        if word in ("and", "or") and left == (word == "or"):
            return left
        right = self.value(rest[1])
        if word in ("/", "%"):
            quotient = whole(abs(left) // abs(right) * (1 if (left < 0) == (right < 0) else -1))
            return quotient if word == "/" else left - right * quotient
        return {"and": lambda: right, "or": lambda: right, "=": lambda: left == right, "!=": lambda: left != right,
                "<": lambda: left < right, "<=": lambda: left <= right, ">": lambda: left > right, ">=": lambda: left >= right,
                "+": lambda: whole(left + right), "-": lambda: whole(left - right), "*": lambda: whole(left * right)}[word]()

    def holds(self, guard):
        try:
            return self.value(guard)
        except ArithmeticError:
            return False

    def step(self, entries):
        self.done, events = set(), self.raised | {outer[1] for _, outer in entries if outer[0] == "event"}
        for unit, outer in entries:
            if outer[0] == "done":
                self.done.add(outer[2])
                self.items[unit][outer[1] - 1] = (outer[2], True)
                for var, val in outer[3]:
                    self.store[var] = val
        enabled = [t for t, (source, _, event, guard, _) in enumerate(self.chart.transitions)
                   if source in self.inside and (event is None or event in events) and self.holds(guard)]
        states, fired = self.chart.walk(0, self.inside, enabled)
        store, raised, starts = list(self.store), set(), []
        for t in sorted(fired):
            for word, number, *expr in self.chart.transitions[t][4]:
                if word == "raise":
                    raised.add(number)
                elif word == "start":
                    starts.append(number)
                else:
                    try:
                        store[number] = self.value(expr[0])
                    except ArithmeticError:
                        raised.add(0)
        for act in starts:
            self.items[self.chart.act_units[act]].append((act, False))
        self.inside, self.store, self.raised, self.taken = states, store, raised, self.taken + 1


def whole(number):
    if not -2 ** 63 <= number < 2 ** 63:
        raise OverflowError
    return number


# ---- servers

class Server:
    def __init__(self):
        self.health, self.admissions, self.sealed, self.came, self.fuse, self.doubt = "works", [], [], set(), None, None

    def stand(self, record):
        """A record stands: an admission, or how many admissions a turn seals."""
        if isinstance(record, int):
            self.sealed.append(record)
        else:
            self.admissions.append(record)

    def strokes(self, count):
        """Makes these strokes, and answers which of them sets the arm off, and how; or nothing."""
        if self.fuse is None:
            return None
        left, what = self.fuse
        self.fuse = (left - count, what) if left > count else None
        return None if left > count else (left, what)

    def fall(self):
        self.health, self.came = "down", set()
        return "crashed"

    def write(self, record, reply):
        struck = self.strokes(4)
        if struck is None:
            self.stand(record)
            return reply
        self.doubt = record if struck[0] >= 3 else None
        if struck[1] != "fail":
            return self.fall()
        self.health = "failed"
        return "diskfault"

    def bar(self):
        return {"works": None, "failed": "reopen", "down": "down"}[self.health]


class Play:
    """All servers of a chart. `stands` is asked with two replies which of them comes: where the record in doubt stands, or not."""

    def __init__(self, chart, stands):
        self.chart, self.stands, self.servers, self.messages = chart, stands, [Server() for _ in chart.units], []

    def entries(self, step):
        """What the turns two steps before sealed, each with its unit and its number."""
        found = []
        for unit, server in enumerate(self.servers):
            turn = step - 3
            if 0 <= turn < len(server.sealed):
                before = sum(server.sealed[:turn])
                found += [(unit, number) for number in range(before + 1, before + server.sealed[turn] + 1)]
        return found

    def central(self, unit):
        central = Central(self.chart)
        for step in range(1, len(self.servers[unit].sealed) + 1):
            central.step([(u, self.servers[u].admissions[n - 1][1]) for u, n in self.entries(step)])
        return central

    def sight(self, unit):
        chart, central = self.chart, self.central(unit)
        states = [chart.states[s] for s in sorted(central.inside) if chart.state_units[s] == unit]
        known = [f"{name}={text_of(val)}" for x, (name, val) in enumerate(zip(chart.vars, central.store)) if chart.knows(unit, x)]
        return " ".join(["after", str(central.taken), "in"] + states + ["vars"] + known)

    def refusal(self, unit, outer):
        """Why an outer isn't let in, if it isn't: all admissions of the unit count as pending."""
        chart, pending = self.chart, [outer for _, outer in self.servers[unit].admissions]
        if outer[0] == "event":
            return None if chart.event_units[outer[1]] == unit else "wrong unit"
        _, item, act, outputs = outer
        if chart.act_units[act] != unit:
            return "wrong unit"
        items = self.central(unit).items[unit]
        if not 1 <= item <= len(items) or items[item - 1][0] != act:
            return "no item"
        if items[item - 1][1] or any(other[0] == "done" and other[1] == item for other in pending):
            return "already done"
        wanted = [(x, type(chart.store[x])) for x in chart.outputs[act]]
        return None if [(x, type(val)) for x, val in outputs] == wanted else "wrong output"

    def admit(self, unit, request, outer):
        server = self.servers[unit]
        if server.bar():
            return server.bar()
        for number, (other, kept) in enumerate(server.admissions, 1):
            if other == request:
                return f"{'again' if repr(kept) == repr(outer) else 'reused'} {number}"
        return self.refusal(unit, outer) or server.write((request, outer), f"new {len(server.admissions) + 1}")

    def turn(self, unit):
        server = self.servers[unit]
        missing = [name for v, name in enumerate(self.chart.units) if v != unit and (v, len(server.sealed) + 1) not in server.came]
        if server.bar() or missing:
            return server.bar() or " ".join(["waiting"] + missing)
        return server.write(min(64, len(server.admissions) - sum(server.sealed)), f"took {len(server.sealed) + 1}")

    def send(self, sender, receiver):
        taken = len(self.servers[sender].sealed)
        if self.servers[sender].health == "down":
            return "down"
        steps, first = [taken, taken + 1] if taken else [1], len(self.messages) + 1
        self.messages += [(sender, receiver, step) for step in steps]
        return " ".join(["sent"] + [str(first + n) for n in range(len(steps))])

    def deliver(self, number):
        if number > len(self.messages):
            return "no message"
        sender, receiver, step = self.messages[number - 1]
        server = self.servers[receiver]
        if server.health == "down":
            return "down"
        if step <= len(server.sealed):
            return "old"
        if (sender, step) in server.came:
            return "same"
        server.came.add((sender, step))
        return "fresh"

    def recover(self, unit):
        server = self.servers[unit]
        struck = server.strokes(1)
        if struck:
            server.fall()
            return "diskfault" if struck[1] == "fail" else "crashed"
        counts = "recovered taken %d admitted %d"
        if server.doubt is not None:
            taken, admitted, turn = len(server.sealed), len(server.admissions), isinstance(server.doubt, int)
            if self.stands(counts % (taken + turn, admitted + (not turn)), counts % (taken, admitted)):
                server.stand(server.doubt)
        server.health, server.came, server.doubt = "works", set(), None
        return counts % (len(server.sealed), len(server.admissions))

    def round(self):
        for sender in range(len(self.servers)):
            for receiver in range(len(self.servers)):
                if sender != receiver:
                    before = len(self.messages)
                    self.send(sender, receiver)
                    for number in range(before + 1, len(self.messages) + 1):
                        self.deliver(number)
        return "round " + ", ".join(f"{name} {self.turn(u)}" for u, name in enumerate(self.chart.units))

    def items(self, unit):
        done = {outer[1] for _, outer in self.servers[unit].admissions if outer[0] == "done"}
        named = enumerate(self.central(unit).items[unit], 1)
        return " ".join(["items"] + [f"{self.chart.acts[act]}#{n}={'done' if n in done else 'open'}" for n, (act, _) in named])

    def reply(self, line):
        word, *rest = tokens_of(line)
        if word == "round":
            return self.round()
        if word == "deliver":
            return self.deliver(int(rest[0]))
        unit = self.chart.units.index(rest[0])
        server = self.servers[unit]
        if word == "admit":
            return self.admit(unit, int(rest[1]), self.outer(rest[2:]))
        if word == "arm":
            server.fuse = (int(rest[1]), rest[2])
            return "armed"
        if word == "send":
            return self.send(unit, self.chart.units.index(rest[1]))
        if word in ("turn", "recover"):
            return getattr(self, word)(unit)
        if server.health == "down":
            return "down"
        return server.fall() if word == "crash" else self.items(unit) if word == "items" else self.sight(unit)

    def outer(self, words):
        if words[0] == "event":
            return "event", self.chart.events.index(words[1])
        outputs, rest = [], words[4:]
        while rest:
            name, _, val = rest.pop(0), rest.pop(0), rest.pop(0)
            outputs.append((self.chart.vars.index(name), value(val + rest.pop(0) if val == "-" else val)))
            rest[:1] = []
        return "done", int(words[2]), self.chart.acts.index(words[1]), outputs

    def text(self, lines):
        """The text of a play."""
        written = [f"{number}: {self.reply(line)}" for number, line in enumerate(lines, 1) if tokens_of(line)] + ["end"]
        for name, server in zip(self.chart.units, self.servers):
            server.fuse = None
        lost = [u for u, server in enumerate(self.servers) if server.health != "works"]
        written += [f"{self.chart.units[u]} {self.recover(u)}" for u in lost]
        for u, (name, server) in enumerate(zip(self.chart.units, self.servers)):
            written.append(f"{name} admitted {len(server.admissions)} {self.sight(u)}")
        for step in range(3, min(len(server.sealed) for server in self.servers) + 3):
            places = "".join(f" {self.chart.units[u]}:{n}" for u, n in self.entries(step))
            written += [f"step {step}{places}"] if places else []
        return "".join(line + "\n" for line in written)



def run(data, stands):
    chart, _, script = ("\n" + data).partition("\n---\n")
    return Play(Chart(chart), stands).text(script.split("\n"))


def judge(data, text):
    """Whether the text is that of a play, where doubts turn out as the text itself shows."""
    import itertools
    lines = text.split("\n")
    def stands(yes, no):
        # the next place in the text is known by what was written so far: try both and see
        return choice.pop(0) if choice else False
    # breadth: at most 12 doubts
    for n in range(13):
        for bits in itertools.product((False, True), repeat=n):
            choice = list(bits)
            asked = []
            def stands(yes, no):
                asked.append((yes, no))
                return bits[len(asked) - 1] if len(asked) <= len(bits) else False
            if run(data, stands) == text:
                return True
            if len(asked) < n:
                return False
    return False


if __name__ == "__main__":
    data = sys.stdin.read()
    print(run(data, lambda yes, no: sys.argv[1:] == ["stands"]), end="")
