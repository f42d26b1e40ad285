#!/usr/bin/env python3
"""Writes a domain, a problem and a valid plan that can be made cheaper, to measure `bdpo improve` and `bdpo deorder`.

    bench/plans.py KIND STEPS FOLDER [SEED]

writes FOLDER/domain.pddl, problem.pddl and plan, a plan of at most STEPS steps and about as many. The same words give the same
bytes. Each plan does what a hasty planner would do: one errand after the other, each as if it were the only one. The kinds:

    errands    a hub, and places from which each can be left for the next (what `bdpo bench` makes)
    transport  trucks with room for few parcels on a net of roads with lengths
    logistics  trucks within cities, aeroplanes between them
    blocks     towers of blocks to be built anew
    towers     discs on three pegs, some moves with a detour
    gripper    balls that a robot with two hands takes to another room, one at a time
    elevators  lifts with a price a floor, passengers fetched one by one
    rovers     rovers that sample waypoints and tell a lander, with ways in between
"""
import os
import random
import sys
from collections import deque

DATA = os.path.join(os.path.dirname(os.path.abspath(__file__)), "..", "crates", "bdpo", "data")


def data(kind):
    with open(os.path.join(DATA, f"{kind}-domain.pddl")) as f:
        return f.read()


def atom(*words):
    return "(" + " ".join(str(w) for w in words) + ")"


def problem(domain, objects, init, goal, metric=False):
    text = f"(define (problem made)\n  (:domain {domain})\n  (:objects {objects})\n  (:init\n"
    text += "".join(f"    {line}\n" for line in init) + "  )\n  (:goal (and\n"
    text += "".join(f"    {line}\n" for line in goal) + "  ))"
    if metric:
        text += "\n  (:metric minimize (total-cost))"
    return text + ")\n"


def way(roads, start, end):
    """The shortest way by the number of roads, as a list of places behind the start."""
    before, queue = {start: None}, deque([start])
    while queue:
        here = queue.popleft()
        if here == end:
            break
        for there in roads[here]:
            if there not in before:
                before[there] = here
                queue.append(there)
    found = []
    while end != start:
        found.append(end)
        end = before[end]
    return found[::-1]


def net(rng, n):
    """A connected net of roads among n places with lengths, by a tree and further roads."""
    roads, length = {k: [] for k in range(n)}, {}

    def put(a, b):
        if a == b or (a, b) in length:
            return
        far = rng.randrange(5, 40)
        roads[a].append(b)
        roads[b].append(a)
        length[a, b] = length[b, a] = far

    for k in range(1, n):
        put(k, rng.randrange(k))
    for _ in range(n):
        put(rng.randrange(n), rng.randrange(n))
    return roads, length


def errands(steps, rng):
    n = max(1, steps // 3)
    out = lambda i: 2 + i % 2
    domain = """(define (domain errands)
(:requirements :strips :typing :action-costs)
(:types place parcel)
(:predicates (at ?p - place) (road ?f ?t - place) (lies ?q - parcel ?p - place) (have ?q - parcel))
(:functions (total-cost) - number (len ?f ?t - place) - number)
(:action drive
:parameters (?f ?t - place)
:precondition (and (at ?f) (road ?f ?t))
:effect (and (at ?t) (not (at ?f)) (increase (total-cost) (len ?f ?t))))
(:action get
:parameters (?q - parcel ?p - place)
:precondition (and (at ?p) (lies ?q ?p))
:effect (and (have ?q) (increase (total-cost) 1))))
"""
    init = ["(at l0) (= (total-cost) 0)"]
    for i in range(1, n + 1):
        init.append(f"(road l0 l{i}) (road l{i} l0) (= (len l0 l{i}) {out(i)}) (= (len l{i} l0) {out(i)}) (lies p{i} l{i})")
    init += [f"(road l{i} l{i + 1}) (= (len l{i} l{i + 1}) 1)" for i in range(1, n)]
    objects = " ".join(f"l{i}" for i in range(n + 1)) + " - place " + " ".join(f"p{i}" for i in range(1, n + 1)) + " - parcel"
    plan = [line for i in range(1, n + 1) for line in (atom("drive", "l0", f"l{i}"), atom("get", f"p{i}", f"l{i}"), atom("drive", f"l{i}", "l0"))]
    return domain, problem("errands", objects, init, [f"(have p{i})" for i in range(1, n + 1)] + ["(at l0)"], True), plan


def transport(steps, rng):
    places, trucks = max(4, steps // 8), 2
    roads, length = net(rng, places)
    at = [rng.randrange(places) for _ in range(trucks)]
    init = ["(= (total-cost) 0) (next none one) (next one two)"]
    init += [f"(at t{t} p{at[t]}) (room t{t} two)" for t in range(trucks)]
    init += [f"(road p{a} p{b}) (= (length p{a} p{b}) {far})" for (a, b), far in sorted(length.items())]
    plan, parcels, goal = [], 0, []
    while True:
        a, b = rng.sample(range(places), 2)
        t = parcels % trucks
        trip = []
        here = at[t]
        for there in way(roads, here, a):
            trip.append(atom("drive", f"t{t}", f"p{here}", f"p{there}"))
            here = there
        trip.append(atom("pick-up", f"t{t}", f"q{parcels}", f"p{a}", "one", "two"))
        for there in way(roads, a, b):
            trip.append(atom("drive", f"t{t}", f"p{here}", f"p{there}"))
            here = there
        trip.append(atom("drop", f"t{t}", f"q{parcels}", f"p{b}", "one", "two"))
        if len(plan) + len(trip) > steps:
            break
        at[t] = b
        init.append(f"(at q{parcels} p{a})")
        goal.append(f"(at q{parcels} p{b})")
        plan += trip
        parcels += 1
    objects = " ".join(f"p{k}" for k in range(places)) + " - place " + " ".join(f"t{t}" for t in range(trucks)) + " - truck "
    objects += " ".join(f"q{k}" for k in range(max(1, parcels))) + " - parcel none one two - load"
    return data("transport"), problem("transport", objects, init, goal or ["(room t0 two)"], True), plan


def logistics(steps, rng):
    cities, each, planes = max(2, steps // 40), 3, 1
    # Each city has an airport aK and two places; the hub belongs to the capital and has no truck.
    objects, init = ["capital0 - city"], []
    objects = []
    for c in range(cities):
        objects += [f"c{c} - city a{c} - airport t{c} - truck"] + [f"p{c}x{k} - place" for k in range(1, each)]
        init.append(f"(within a{c} c{c}) (at t{c} a{c})")
        init += [f"(within p{c}x{k} c{c})" for k in range(1, each)]
    objects += [f"f{f} - aeroplane" for f in range(planes)]
    init += ["(within hub capital)"] + [f"(at f{f} hub)" for f in range(planes)]
    name = lambda c, k: f"a{c}" if k == 0 else f"p{c}x{k}"
    truck, plan, goal, made = [0] * cities, [], [], 0
    while True:
        c, d = rng.randrange(cities), rng.randrange(cities)
        k, m = rng.randrange(each), rng.randrange(each)
        if (c, k) == (d, m):
            continue
        q, trip, spot = f"q{made}", [], dict(enumerate(truck))

        def bring(c, k, m):
            if k == m:
                return
            if spot[c] != k:
                trip.append(atom("drive", f"t{c}", name(c, spot[c]), name(c, k), f"c{c}"))
            trip.append(atom("load", q, f"t{c}", name(c, k)))
            trip.append(atom("drive", f"t{c}", name(c, k), name(c, m), f"c{c}"))
            trip.append(atom("unload", q, f"t{c}", name(c, m)))
            spot[c] = m

        if c == d:
            bring(c, k, m)
        else:
            bring(c, k, 0)
            trip += [atom("fly-from-hub", "f0", f"a{c}"), atom("load", q, "f0", f"a{c}"), atom("fly-to-hub", "f0", f"a{c}")]
            trip += [atom("fly-from-hub", "f0", f"a{d}"), atom("unload", q, "f0", f"a{d}"), atom("fly-to-hub", "f0", f"a{d}")]
            bring(d, 0, m)
        if len(plan) + len(trip) > steps:
            break
        truck = [spot[x] for x in range(cities)]
        init.append(f"(at {q} {name(c, k)})")
        goal.append(f"(at {q} {name(d, m)})")
        plan += trip
        made += 1
    objects += [f"q{k} - package" for k in range(max(1, made))]
    return data("logistics"), problem("logistics", " ".join(objects), init, goal or ["(at f0 hub)"]), plan


def blocks(steps, rng):
    n = max(2, round(steps / 2.8))

    def towers():
        order = list(range(n))
        rng.shuffle(order)
        found = []
        for b in order:
            if found and rng.random() < 0.7:
                found[-1].append(b)
            else:
                found.append([b])
        return found

    before, after = towers(), towers()
    init, goal, plan = ["(hand-empty)"], [], []
    for tower in before:
        init.append(f"(on-table b{tower[0]}) (clear b{tower[-1]})")
        init += [f"(on b{above} b{below})" for below, above in zip(tower, tower[1:])]
        for below, above in reversed(list(zip(tower, tower[1:]))):
            plan += [atom("unstack", f"b{above}", f"b{below}"), atom("put-down", f"b{above}")]
    for tower in after:
        goal += [f"(on b{above} b{below})" for below, above in zip(tower, tower[1:])]
        for below, above in zip(tower, tower[1:]):
            plan += [atom("pick-up", f"b{above}"), atom("stack", f"b{above}", f"b{below}")]
    return data("blocks"), problem("blocks", " ".join(f"b{k}" for k in range(n)), init, goal or ["(hand-empty)"]), plan


def towers(steps, rng):
    n = 1
    while 2 ** (n + 1) - 1 <= steps:
        n += 1
    on = {f"d{k}": f"d{k + 1}" for k in range(1, n)}
    on[f"d{n}"] = "left"
    plan, pegs = [], {"left": [f"d{k}" for k in range(n, 0, -1)], "middle": [], "right": []}

    def top(peg):
        return pegs[peg][-1] if pegs[peg] else peg

    def move(source, target):
        disc = pegs[source].pop()
        plan.append(atom("move", disc, top(source), top(target)))
        pegs[target].append(disc)

    done = [0]

    def left(n):
        """How many moves the plan has in the end if no further detour comes, and one more."""
        return len(plan) + 2 ** n - 1 - done[0] + 1

    def hanoi(k, source, target, spare):
        if k == 0:
            return
        hanoi(k - 1, source, spare, target)
        # The least disc of a tower may go by the third peg, where it is free to go.
        if k == 1 and left(n) < steps and rng.random() < 0.8:
            move(source, spare)
            move(spare, target)
        else:
            move(source, target)
        done[0] += 1
        hanoi(k - 1, spare, target, source)

    hanoi(n, "left", "right", "middle")
    discs = [f"d{k}" for k in range(1, n + 1)]
    init = [f"(smaller {peg} {d})" for peg in ("left", "middle", "right") for d in discs]
    init += [f"(smaller d{b} d{a})" for a in range(1, n + 1) for b in range(a + 1, n + 1)]
    init += ["(clear middle) (clear right) (clear d1)"] + [f"(on {d} {p})" for d, p in sorted(on.items())]
    goal = [f"(on d{k} d{k + 1})" for k in range(1, n)] + [f"(on d{n} right)"]
    return data("towers"), problem("towers", "left middle right " + " ".join(discs), init, goal), plan


def gripper(steps, rng):
    n = max(1, steps // 4)
    domain = """(define (domain gripper)
  (:requirements :strips :typing)
  (:types room ball hand)
  (:predicates (robot-at ?r - room) (at ?b - ball ?r - room) (free ?h - hand) (holds ?h - hand ?b - ball))
  (:action walk
    :parameters (?from ?to - room)
    :precondition (robot-at ?from)
    :effect (and (not (robot-at ?from)) (robot-at ?to)))
  (:action take
    :parameters (?b - ball ?r - room ?h - hand)
    :precondition (and (at ?b ?r) (robot-at ?r) (free ?h))
    :effect (and (not (at ?b ?r)) (not (free ?h)) (holds ?h ?b)))
  (:action give
    :parameters (?b - ball ?r - room ?h - hand)
    :precondition (and (holds ?h ?b) (robot-at ?r))
    :effect (and (at ?b ?r) (free ?h) (not (holds ?h ?b)))))
"""
    plan = []
    for k in range(n):
        hand = rng.choice(["left", "right"])
        plan += [atom("take", f"b{k}", "here", hand), atom("walk", "here", "there"), atom("give", f"b{k}", "there", hand)]
        if k + 1 < n:
            plan.append(atom("walk", "there", "here"))
    objects = "here there - room left right - hand " + " ".join(f"b{k}" for k in range(n)) + " - ball"
    init = ["(robot-at here) (free left) (free right)"] + [f"(at b{k} here)" for k in range(n)]
    return domain, problem("gripper", objects, init, [f"(at b{k} there)" for k in range(n)]), plan


def elevators(steps, rng):
    floors, lifts = max(4, steps // 10), 2
    domain = """(define (domain elevators)
  (:requirements :strips :typing :action-costs)
  (:types floor lift rider count)
  (:predicates (lift-at ?l - lift ?f - floor) (waits ?r - rider ?f - floor) (rides ?r - rider ?l - lift)
               (above ?low ?high - floor) (has ?l - lift ?n - count) (next ?less ?more - count))
  (:functions (total-cost) - number (price ?from ?to - floor) - number)
  (:action up
    :parameters (?l - lift ?from ?to - floor)
    :precondition (and (lift-at ?l ?from) (above ?from ?to))
    :effect (and (not (lift-at ?l ?from)) (lift-at ?l ?to) (increase (total-cost) (price ?from ?to))))
  (:action down
    :parameters (?l - lift ?from ?to - floor)
    :precondition (and (lift-at ?l ?from) (above ?to ?from))
    :effect (and (not (lift-at ?l ?from)) (lift-at ?l ?to) (increase (total-cost) (price ?to ?from))))
  (:action enter
    :parameters (?r - rider ?l - lift ?f - floor ?less ?more - count)
    :precondition (and (waits ?r ?f) (lift-at ?l ?f) (has ?l ?less) (next ?less ?more))
    :effect (and (not (waits ?r ?f)) (rides ?r ?l) (not (has ?l ?less)) (has ?l ?more)))
  (:action leave
    :parameters (?r - rider ?l - lift ?f - floor ?less ?more - count)
    :precondition (and (rides ?r ?l) (lift-at ?l ?f) (has ?l ?more) (next ?less ?more))
    :effect (and (waits ?r ?f) (not (rides ?r ?l)) (not (has ?l ?more)) (has ?l ?less))))
"""
    at = [rng.randrange(floors) for _ in range(lifts)]
    init = ["(= (total-cost) 0) (next n0 n1) (next n1 n2) (next n2 n3)"] + [f"(lift-at e{k} f{at[k]}) (has e{k} n0)" for k in range(lifts)]
    init += [f"(above f{a} f{b}) (= (price f{a} f{b}) {6 + 3 * (b - a)})" for a in range(floors) for b in range(a + 1, floors)]
    plan, riders, goal = [], 0, []
    while True:
        a, b = rng.sample(range(floors), 2)
        k, trip = riders % lifts, []
        here = at[k]
        for there, does in ((a, "enter"), (b, "leave")):
            if here != there:
                trip.append(atom("up" if here < there else "down", f"e{k}", f"f{here}", f"f{there}"))
            trip.append(atom(does, f"r{riders}", f"e{k}", f"f{there}", "n0", "n1"))
            here = there
        if len(plan) + len(trip) > steps:
            break
        at[k] = here
        init.append(f"(waits r{riders} f{a})")
        goal.append(f"(waits r{riders} f{b})")
        plan += trip
        riders += 1
    objects = " ".join(f"f{k}" for k in range(floors)) + " - floor " + " ".join(f"e{k}" for k in range(lifts)) + " - lift "
    objects += " ".join(f"r{k}" for k in range(max(1, riders))) + " - rider n0 n1 n2 n3 - count"
    return domain, problem("elevators", objects, init, goal or ["(has e0 n0)"], True), plan


def rovers(steps, rng):
    points, robots = max(4, steps // 6), 2
    roads, _ = net(rng, points)
    domain = """(define (domain rovers)
  (:requirements :strips :typing)
  (:types waypoint rover store)
  (:predicates (at ?r - rover ?p - waypoint) (way ?from ?to - waypoint) (store-of ?s - store ?r - rover) (empty ?s - store)
               (full ?s - store) (soil ?p - waypoint) (sampled ?r - rover ?p - waypoint) (seen ?p - waypoint) (told ?p - waypoint))
  (:action go
    :parameters (?r - rover ?from ?to - waypoint)
    :precondition (and (at ?r ?from) (way ?from ?to))
    :effect (and (not (at ?r ?from)) (at ?r ?to)))
  (:action sample
    :parameters (?r - rover ?s - store ?p - waypoint)
    :precondition (and (at ?r ?p) (soil ?p) (store-of ?s ?r) (empty ?s))
    :effect (and (not (empty ?s)) (full ?s) (not (soil ?p)) (sampled ?r ?p)))
  (:action drop
    :parameters (?r - rover ?s - store)
    :precondition (and (store-of ?s ?r) (full ?s))
    :effect (and (not (full ?s)) (empty ?s)))
  (:action tell
    :parameters (?r - rover ?of ?from - waypoint)
    :precondition (and (at ?r ?from) (sampled ?r ?of) (seen ?from))
    :effect (told ?of)))
"""
    seen = sorted(rng.sample(range(points), max(1, points // 4)))
    at = [rng.randrange(points) for _ in range(robots)]
    init = [f"(at r{k} p{at[k]}) (store-of s{k} r{k}) (empty s{k})" for k in range(robots)] + [f"(seen p{p})" for p in seen]
    init += [f"(way p{a} p{b})" for a in range(points) for b in roads[a]] + [f"(soil p{p})" for p in range(points)]
    order = list(range(points))
    rng.shuffle(order)
    plan, goal = [], []
    for turn, p in enumerate(order):
        k, trip = turn % robots, []
        here = at[k]
        for target in (p, rng.choice(seen)):
            for there in way(roads, here, target):
                trip.append(atom("go", f"r{k}", f"p{here}", f"p{there}"))
                here = there
            if target == p and len([x for x in trip if x.startswith("(sample")]) == 0:
                trip.append(atom("sample", f"r{k}", f"s{k}", f"p{p}"))
        trip += [atom("tell", f"r{k}", f"p{p}", f"p{here}"), atom("drop", f"r{k}", f"s{k}")]
        if len(plan) + len(trip) > steps:
            break
        at[k] = here
        goal.append(f"(told p{p})")
        plan += trip
    objects = " ".join(f"p{k}" for k in range(points)) + " - waypoint " + " ".join(f"r{k} - rover s{k} - store" for k in range(robots))
    return domain, problem("rovers", objects, init, goal or ["(empty s0)"]), plan


KINDS = {f.__name__: f for f in (errands, transport, logistics, blocks, towers, gripper, elevators, rovers)}


def main():
    kind, steps, folder = sys.argv[1], int(sys.argv[2]), sys.argv[3]
    seed = int(sys.argv[4]) if len(sys.argv) > 4 else 1
    domain, text, plan = KINDS[kind](steps, random.Random(f"{kind} {steps} {seed}"))
    os.makedirs(folder, exist_ok=True)
    for name, what in (("domain.pddl", domain), ("problem.pddl", text), ("plan", "".join(f"{line}\n" for line in plan))):
        with open(os.path.join(folder, name), "w") as f:
            f.write(what)


if __name__ == "__main__":
    main()
