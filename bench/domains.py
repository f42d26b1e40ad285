#!/usr/bin/env python3
"""Writes a domain, a problem and a plan for `bdpo check`, to measure reading and grounding.

    bench/domains.py KIND N FOLDER

writes FOLDER/domain.pddl, problem.pddl and plan. The kinds:

    roads    N places, a road with a length from each to each other; a plan of one drive (N = 300: 89,700 instances, 3.4 MB)
    chain    a schema of six parameters over N objects, whose static atoms allow 10 * N instances
    pairs    a schema of two parameters over N objects, whose N * N instances all stand
    more     `pairs`, and one instance more

Texts of N megabytes, to measure the readers alone; the plan is `(none)`, which is told at once:

    init     many atoms that hold at first
    values   many values of a function
    objects  60,000 objects for 16 MB, each with its type
    onelist  one typed list of 60,000 names for 16 MB
    deep     goals in 90 lists in one another
    flat     types under one type
    up, down types in one chain, given from below and from above
    mixed    a chain of types, and types that come under its lowest one, one after the other
"""
import os
import sys


def roads(n):
    domain = """(define (domain roads)
  (:requirements :typing :action-costs)
  (:types place)
  (:predicates (at ?x - place) (road ?x ?y - place))
  (:functions (total-cost) - number (len ?x ?y - place) - number)
  (:action drive :parameters (?x ?y - place)
    :precondition (and (at ?x) (road ?x ?y))
    :effect (and (not (at ?x)) (at ?y) (increase (total-cost) (len ?x ?y)))))
"""
    places = " ".join(f"p{k}" for k in range(n))
    ways = "\n".join(f"(road p{a} p{b}) (= (len p{a} p{b}) {(7 * a + 13 * b) % 99 + 1})" for a in range(n) for b in range(n) if a != b)
    problem = f"(define (problem roads) (:domain roads) (:objects {places} - place)\n(:init (at p0)\n{ways})\n(:goal (at p1)) (:metric minimize (total-cost)))\n"
    return domain, problem, "(drive p0 p1)\n"


def chain(n):
    domain = """(define (domain chain)
  (:predicates (next ?x ?y) (had ?x))
  (:action pass :parameters (?a ?b ?c ?d ?e ?f)
    :precondition (and (next ?a ?b) (next ?b ?c) (next ?c ?d) (next ?d ?e) (next ?e ?f))
    :effect (had ?f)))
"""
    objects = " ".join(f"o{k}" for k in range(n))
    # Each object of the last places but one leads to ten of the next, so ten ways lead on from each first one.
    steps = [(k, (k + 1) % n) for k in range(n)]
    init = "\n".join(f"(next o{a} o{b})" for a, b in steps)
    forks = "\n".join(f"(fork o{a} o{(a + j) % n})" for a in range(n) for j in range(1, 11))
    domain = domain.replace("(next ?e ?f))", "(fork ?e ?f))").replace("(had ?x))", "(fork ?x ?y) (had ?x))")
    problem = f"(define (problem chain) (:domain chain) (:objects {objects})\n(:init {init}\n{forks})\n(:goal (had o5)))\n"
    return domain, problem, "(pass o0 o1 o2 o3 o4 o5)\n"


def pairs(n, more=False):
    extra = "\n  (:action rest :effect (had o0))" if more else ""
    constants = "\n  (:constants o0)" if more else ""
    domain = f"""(define (domain pairs){constants}
  (:predicates (had ?x))
  (:action take :parameters (?x ?y) :effect (had ?y)){extra})
"""
    objects = " ".join(f"o{k}" for k in range(n))
    problem = f"(define (problem pairs) (:domain pairs) (:objects {objects})\n(:init)\n(:goal (had o1)))\n"
    return domain, problem, "(take o0 o1)\n"


PLACES = 1000
TEXT = """(define (domain d) (:types t) (:predicates (at ?x - t) (road ?x ?y))
  (:functions (total-cost) - number (len ?x ?y) - number)
  (:action go :parameters (?x - t) :precondition (at ?x) :effect (at ?x)))
"""


def filled(size, item):
    """As many items as the size takes, one a line."""
    found, left, k = [], size, 0
    while True:
        one = item(k)
        left -= len(one) + 1
        if left < 0:
            return "\n".join(found)
        found.append(one)
        k += 1


def problem_of(objects, init, goal="(and)"):
    return TEXT, f"(define (problem p) (:domain d) (:objects {objects})\n(:init {init})\n(:goal {goal}))\n", "(none)\n"


def domain_of(types):
    return f"(define (domain d) (:types {types}))\n", "(define (problem p) (:init) (:goal (and)))\n", "(none)\n"


def text(kind, megabytes):
    size = megabytes * 1024 * 1024 - 9000
    places = " ".join(f"l{k}" for k in range(PLACES))
    pair = lambda k: f"l{k % PLACES} l{k // PLACES % PLACES}"
    if kind == "init":
        return problem_of(places, filled(size, lambda k: f"(road {pair(k)})"))
    if kind == "values":
        return problem_of(places, filled(size, lambda k: f"(= (len {pair(k)}) {k})"))
    count = 60_000 * megabytes // 16
    if kind == "objects":
        return problem_of(" ".join(f"o{k:0{size // count - 6}d} - t" for k in range(count)), "")
    if kind == "onelist":
        return problem_of(" ".join(f"o{k:0{size // count - 2}d}" for k in range(count)), "")
    if kind == "deep":
        one = "(and " * 90 + "(at l0)" + ")" * 90
        return problem_of("l0", "", f"(and {filled(size, lambda k: one)})")
    count = size // 19
    if kind == "flat":
        return domain_of(" ".join(f"a{k} - a0" for k in range(1, count)))
    if kind == "up":
        return domain_of(" ".join(f"a{k} - a{k + 1}" for k in range(count)))
    if kind == "down":
        return domain_of(" ".join(f"a{k} - a{k - 1}" for k in range(count, 0, -1)))
    count = size // 60
    chain = [f"c{k} - c{k + 1}" for k in range(count)]
    return domain_of(" ".join([f"x{k} - b{k}" for k in range(count)] + chain + [f"b{k} - c0" for k in range(count - 1, -1, -1)]))


KINDS = {kind: lambda n, kind=kind: text(kind, n) for kind in "init values objects onelist deep flat up down mixed".split()}
KINDS |= {"roads": roads, "chain": chain, "pairs": pairs, "more": lambda n: pairs(n, True)}


def main():
    if len(sys.argv) != 4 or sys.argv[1] not in KINDS:
        sys.exit(__doc__)
    kind, n, folder = sys.argv[1], int(sys.argv[2]), sys.argv[3]
    os.makedirs(folder, exist_ok=True)
    for name, text in zip(("domain.pddl", "problem.pddl", "plan"), KINDS[kind](n)):
        with open(f"{folder}/{name}", "w") as file:
            file.write(text)


main()
