#!/usr/bin/env python3
"""Writes a script for `bdpo replay`, to measure offers of one kind.

    bench/scripts.py KIND STEPS OFFERS > SCRIPT

The kinds, on a plan of STEPS steps:

    replace    a flat chain; each offer replaces a step by a cheaper one, and is accepted
    unlinked   the same chain; each offer takes a needed step out, and is refused by the link check
    nested     `replace` on a start tree of blocks of ten steps, each before all later ones
    loose      the same on blocks that are unordered
    almost     `replace` on a flat tree in which all steps are in turn but for the last two, which a first tightening unorders
    flat       `replace` on a flat tree of unordered chains of ten steps
    tighten    steps that need nothing, in a chain; each offer unorders two of them, and is accepted
    tight      steps in pairs, the second of which needs the first; each offer unorders such a pair, and is refused
    rebuild    `replace` and, after each, a rebuild as unordered chains of ten steps
    text       a script of about 16 MB, most of it actions that the plan leaves alone
"""
import sys

GROUP = 10


def turn(low, high):
    """The pairs of an order in which each of the positions from low on and below high is before all later ones."""
    return " ".join(f"{i}<{j}" for i in range(low, high) for j in range(i + 1, high))


def groups(steps):
    """The first and the past step of each group."""
    return [(k, min(k + GROUP, steps)) for k in range(0, steps, GROUP)]


def levels(steps, offers):
    """How often a step can be replaced by a cheaper one, plus one."""
    return -(-offers // steps) + 1


def chains(steps, offers, grouped):
    """Facts and actions of steps in chains: step k, of each cost, needs what the step before it in its chain adds."""
    lines = [f"fact ({k})" for k in range(steps)]
    top = levels(steps, offers)
    for k in range(steps):
        first = k % GROUP == 0 if grouped else k == 0
        pre = "" if first else f" ({k - 1})"
        lines += [f"action (do {k} {cost}) {cost} pre{pre} add ({k}) del" for cost in range(top)]
    lines += ["init", "goal" + "".join(f" ({k})" for k in range(steps))]
    lines.append("plan" + "".join(f" (do {k} {top - 1})" for k in range(steps)))
    return lines


def block(steps, k):
    """The id of the group that step k is in."""
    return steps + 1 + k // GROUP


def start(steps, offers, root):
    """The start tree with a block for each group, where root is the order of the blocks."""
    top = levels(steps, offers)
    kids = []
    for low, high in groups(steps):
        nodes = " ".join(f"{k + 1}:(do {k} {top - 1})" for k in range(low, high))
        kids.append(f"{block(steps, low)}{{ {nodes} | {turn(0, high - low)} }}")
    return f"start 0{{ {' '.join(kids)} | {root} }}"


def cheaper(steps, offers, last, window):
    """Offers that replace one step after another by the next cheaper one; last is the greatest id of the tree."""
    ids = [k + 1 for k in range(steps)]
    costs = [levels(steps, offers) - 1] * steps
    for n in range(offers):
        k = n % steps
        yield f"replace {window(k)} early {ids[k]}:(do {k} {costs[k]}) with (do {k} {costs[k] - 1})"
        ids[k] = last + n + 1
        costs[k] -= 1


def replace(steps, offers):
    return chains(steps, offers, False) + list(cheaper(steps, offers, steps, lambda k: 0))


def unlinked(steps, offers):
    lines = chains(steps, steps, False)
    for n in range(offers):
        k = n % (steps - 1)
        lines.append(f"replace 0 early {k + 1}:(do {k} 1) with")
    return lines


def in_blocks(steps, offers, grouped, root):
    last = block(steps, steps - 1)
    return chains(steps, offers, grouped) + [start(steps, offers, root)] + list(
        cheaper(steps, offers, last, lambda k: block(steps, k)))


def nested(steps, offers):
    return in_blocks(steps, offers, False, turn(0, len(groups(steps))))


def loose(steps, offers):
    return in_blocks(steps, offers, True, "")


def almost(steps, offers):
    lines = chains(steps, offers, False)
    at = next(n for n, line in enumerate(lines) if line.startswith("init"))
    lines[at:at] = [f"action (rest {k}) 1 pre add del" for k in range(2)]
    lines[-1] += " (rest 0) (rest 1)"
    lines.append(f"tighten 0 left {steps + 1} right {steps + 2}")
    return lines + list(cheaper(steps, offers, steps + 2, lambda k: 0))


def flat(steps, offers):
    top = levels(steps, offers)
    nodes = " ".join(f"{k + 1}:(do {k} {top - 1})" for k in range(steps))
    order = " ".join(turn(low, high) for low, high in groups(steps))
    return chains(steps, offers, True) + [f"start 0{{ {nodes} | {order} }}"] + list(
        cheaper(steps, offers, steps, lambda k: 0))


def tighten(steps, offers):
    lines = [f"fact ({k})" for k in range(steps)]
    lines += [f"action (do {k}) 1 pre add ({k}) del" for k in range(steps)]
    lines += ["init", "goal" + "".join(f" ({k})" for k in range(steps))]
    lines.append("plan" + "".join(f" (do {k})" for k in range(steps)))
    pairs = ((k, k + far) for far in range(1, steps) for k in range(1, steps - far + 1))
    lines += [f"tighten 0 left {i} right {j}" for (i, j), n in zip(pairs, range(offers))]
    return lines


def tight(steps, offers):
    lines = chains(steps, steps, False)
    lines += [f"tighten 0 left {n % (steps - 1) + 1} right {n % (steps - 1) + 2}" for n in range(offers)]
    return lines


def rebuild(steps, offers):
    order = " ".join(turn(low, high) for low, high in groups(steps))
    lines = chains(steps, offers, True)
    for offer in cheaper(steps, offers // 2, steps, lambda k: 0):
        lines += [offer, f"rebuild {order}"]
    return lines


def text(steps, offers):
    lines = chains(steps, steps, False)
    size = sum(len(line) + 1 for line in lines)
    spare = []
    while size < 16_500_000:
        spare.append(f"action (spare {len(spare)}) 7 pre (0) (1) add (2) (3) del (4)")
        size += len(spare[-1]) + 1
    at = next(n for n, line in enumerate(lines) if line.startswith("init"))
    return lines[:at] + spare + lines[at:]


KINDS = {f.__name__: f for f in (replace, unlinked, nested, loose, almost, flat, tighten, tight, rebuild, text)}


def main():
    if len(sys.argv) != 4 or sys.argv[1] not in KINDS:
        sys.exit(__doc__)
    lines = KINDS[sys.argv[1]](int(sys.argv[2]), int(sys.argv[3]))
    print("\n".join(["bdpo-script 1"] + lines + ["end"]))


main()
