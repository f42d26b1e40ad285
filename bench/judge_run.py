#!/usr/bin/env python3
"""Judges what `bdpo improve` prints, by the plain meaning of the texts and by nothing of the program's own.

    bench/judge_run.py DOMAIN PROBLEM PLAN OUTPUT

tells whether each plan in the file OUTPUT runs from the init list to the goal, costs what is printed behind it and less than
the one before it (the first: less than PLAN), stands at a later place, and whether the summary agrees with them. The domain
may have typed parameters, `=` and `not (=)`, positive conditions and costs. No action is grounded: each call is run as it is.
"""
import re
import sys


def words(text):
    text = re.sub(r";[^\n]*", "", text).lower()
    out = []
    stack = [out]
    for token in re.findall(r"[()]|[^\s()]+", text):
        if token == "(":
            inner = []
            stack[-1].append(inner)
            stack.append(inner)
        elif token == ")":
            stack.pop()
        else:
            stack[-1].append(token)
    return out


def typed(items):
    """Names with their types, `object` where none is written."""
    found, group = [], []
    k = 0
    while k < len(items):
        if items[k] == "-":
            found += [(name, items[k + 1]) for name in group]
            group, k = [], k + 2
        else:
            group.append(items[k])
            k += 1
    return found + [(name, "object") for name in group]


def parts(e):
    if not e:
        return []
    return [x for y in e[1:] for x in parts(y)] if e[0] == "and" else [e]


class Task:
    def __init__(self, domain, problem):
        self.parent, self.kind, self.schemas = {"object": None}, {}, {}
        self.init, self.goal, self.value, self.metric = set(), [], {}, False
        for section in domain[2:]:
            if section[0] == ":types":
                self.parent.update({n: t for n, t in typed(section[1:])})
            elif section[0] == ":constants":
                self.kind.update(dict(typed(section[1:])))
            elif section[0] == ":action":
                field = dict(zip(section[2::2], section[3::2]))
                self.schemas[section[1]] = (typed(field.get(":parameters", [])), parts(field.get(":precondition", [])), parts(field.get(":effect", [])))
        for section in problem[2:]:
            if section[0] == ":objects":
                self.kind.update(dict(typed(section[1:])))
            elif section[0] == ":init":
                for item in section[1:]:
                    if item[0] == "=":
                        self.value[tuple(item[1])] = round(float(item[2]))
                    else:
                        self.init.add(tuple(item))
            elif section[0] == ":goal":
                self.goal = [tuple(g) for g in parts(section[1])]
            elif section[0] == ":metric":
                self.metric = True

    def fits(self, name, kind):
        here = self.kind.get(name)
        while here is not None and here != kind:
            here = self.parent.get(here)
        return here == kind

    def step(self, state, call):
        """The state behind a call and its cost, or None where it can't run."""
        params, pre, effects = self.schemas[call[0]]
        if len(params) != len(call) - 1 or not all(self.fits(o, t) for (_, t), o in zip(params, call[1:])):
            return None
        by = dict(zip((p for p, _ in params), call[1:]))
        fill = lambda a: tuple(by.get(w, w) for w in a)
        for c in pre:
            if c[0] == "=":
                holds = fill(c)[1] == fill(c)[2]
            elif c[0] == "not":
                holds = fill(c[1])[1] != fill(c[1])[2]
            else:
                holds = fill(c) in state
            if not holds:
                return None
        add = {fill(e) for e in effects if e[0] not in ("not", "increase")}
        gone = {fill(e[1]) for e in effects if e[0] == "not"}
        cost = 0 if self.metric else 1
        for e in effects:
            if e[0] == "increase" and self.metric:
                cost = self.value[fill(e[2])] if isinstance(e[2], list) else round(float(e[2]))
        return (state - gone) | add, cost

    def cost(self, plan):
        """What a plan costs, or None where it isn't valid."""
        state, total = set(self.init), 0
        for call in plan:
            after = self.step(state, call)
            if after is None:
                return None
            state, total = after[0], total + after[1]
        return total if all(g in state for g in self.goal) else None


def main():
    domain, problem, start, output = (open(p).read() for p in sys.argv[1:5])
    task = Task(words(domain)[0], words(problem)[0])
    last = first = task.cost([tuple(c) for c in words(start)])
    wrong, place, plan, places, summary = [], None, [], [], {}
    if first is None:
        wrong.append("the first plan is not valid")
    for line in output.split("\n"):
        if line.startswith("; place "):
            place, plan = int(line[8:]), []
            if places and place <= places[-1]:
                wrong.append(f"place {place} is not later")
            places.append(place)
        elif line.startswith("; cost = "):
            told, real = int(line[9:]), task.cost(plan)
            if real is None or real != told or last is None or told >= last:
                wrong.append(f"at place {place}: told {told}, costs {real}, before {last}")
            last = told
        elif line.startswith("("):
            plan.append(tuple(words(line)[0]))
        elif line.startswith("; "):
            key, _, rest = line[2:].partition(" ")
            summary[key] = rest
    for key, real in (("start", first), ("final", last), ("replacements", len(places))):
        if summary.get(key) != str(real):
            wrong.append(f"{key} is told as {summary.get(key)}, and is {real}")
    if summary.get("end") not in ("dry", "closed"):
        wrong.append(f"the end is told as {summary.get('end')}")
    for line in wrong:
        print("NO:", line)
    print("BAD" if wrong else "ok", len(places), "plans,", first, "to", last, "end", summary.get("end"), "windows", summary.get("windows"))
    sys.exit(1 if wrong else 0)


if __name__ == "__main__":
    main()
