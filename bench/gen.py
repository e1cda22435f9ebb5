#!/usr/bin/env python3
"""Makes a problem of a family, for bench/controllers: the domain FOLDER/FAMILY-SIZE.d and the problem FOLDER/FAMILY-SIZE.p.

    bench/gen.py FAMILY SIZE FOLDER
    bench/gen.py list                the families, with what each is
"""

import sys
from pathlib import Path


def lines(*ls):
    return '\n'.join(ls) + '\n'

def problem(dom, objs, init, goal):
    return lines('(define (problem p) (:domain %s)' % dom, '  (:objects %s)' % objs,
                 '  (:init %s)' % ' '.join(init), '  (:goal %s))' % goal)

def rng(p, n, a=1):
    return ['%s%d' % (p, i) for i in range(a, n + 1)]

def chain(pred, names):
    return ['(%s %s %s)' % (pred, a, b) for a, b in zip(names, names[1:])]

def row(n):
    """A corridor of n rooms; going on may leave the robot where it is. Cyclic."""
    d = lines('(define (domain row)', '  (:predicates (at ?r) (next ?a ?b))',
              '  (:action go :parameters (?a ?b)', '    :precondition (and (at ?a) (next ?a ?b))',
              '    :effect (oneof (and (not (at ?a)) (at ?b)) (and))))')
    r = rng('r', n)
    p = lines('(define (problem row) (:domain row)', '  (:objects %s)' % ' '.join(r),
              '  (:init %s)' % ' '.join(['(at r1)'] + chain('next', r)), '  (:goal (at r%d)))' % n)
    return d, p

def tyres(n):
    """n places in a row; a move may leave a flat tyre, which is changed at a depot. Strong."""
    d = lines('(define (domain tyres)', '  (:predicates (car ?l) (flat ?l) (road ?a ?b) (depot ?l))',
              '  (:action move :parameters (?a ?b)', '    :precondition (and (car ?a) (road ?a ?b))',
              '    :effect (and (not (car ?a)) (oneof (car ?b) (flat ?b))))',
              '  (:action change :parameters (?l)', '    :precondition (and (flat ?l) (depot ?l))',
              '    :effect (and (not (flat ?l)) (car ?l))))')
    l = rng('l', n)
    p = lines('(define (problem tyres) (:domain tyres)', '  (:objects %s)' % ' '.join(l),
              '  (:init %s)' % ' '.join(['(car l1)'] + chain('road', l) + ['(depot %s)' % x for x in l[1:]]),
              '  (:goal (car l%d)))' % n)
    return d, p

def cells(n):
    """n x n cells, position one-hot over cells; a move may leave the robot where it is."""
    d = lines('(define (domain cells) (:predicates (at ?c) (adj ?a ?b))',
              '  (:action move :parameters (?a ?b) :precondition (and (at ?a) (adj ?a ?b))',
              '    :effect (oneof (and (not (at ?a)) (at ?b)) (and))))')
    c = lambda i, j: 'c-%d-%d' % (i, j)
    adj = ['(adj %s %s)' % (c(i, j), c(i + di, j + dj)) for i in range(n) for j in range(n)
           for di, dj in ((0, 1), (1, 0), (0, -1), (-1, 0)) if 0 <= i + di < n and 0 <= j + dj < n]
    return d, problem('cells', ' '.join(c(i, j) for i in range(n) for j in range(n)),
                      ['(at %s)' % c(0, 0)] + adj, '(at %s)' % c(n - 1, n - 1))

def slipgrid(n):
    """n x n grid, one-hot x and y; a move goes its way and may also drift one step sideways
    (conditional effects under forall); the far corner must be reached. (broken) is rigid and false."""
    def act(name, p, q, fwd, drift):
        s = '(succ ?a ?b)' if fwd else '(succ ?b ?a)'
        w = '(succ ?c ?d)' if drift else '(succ ?d ?c)'
        mv = '(not (%s ?a)) (%s ?b)' % (p, p)
        return ('  (:action %s :parameters (?a ?b) :precondition (and (%s ?a) %s (not (broken)))\n'
                '    :effect (oneof (and %s) (and %s (forall (?c ?d) (when (and (%s ?c) %s)\n'
                '      (and (not (%s ?c)) (%s ?d)))))))') % (name, p, s, mv, mv, q, w, q, q)
    d = lines('(define (domain slipgrid) (:predicates (px ?i) (py ?i) (broken) (succ ?a ?b))',
              act('east', 'px', 'py', True, True), act('west', 'px', 'py', False, False),
              act('north', 'py', 'px', True, True), act('south', 'py', 'px', False, False) + ')')
    i = rng('i', n)
    return d, problem('slipgrid', ' '.join(i), ['(px i1)', '(py i1)'] + chain('succ', i), '(and (px i%d) (py i%d))' % (n, n))

def blocks(n):
    """Blocks; picking up may drop the block on the table, stacking may drop it on the table.
    n blocks on the table, to be one tower: fluents (n+1)^2."""
    d = lines('(define (domain blocks)',
              '  (:predicates (on ?x ?y) (ontable ?x) (clear ?x) (holding ?x) (handempty))',
              '  (:action pick-up :parameters (?x) :precondition (and (clear ?x) (ontable ?x) (handempty))',
              '    :effect (oneof (and) (and (not (ontable ?x)) (not (clear ?x)) (not (handempty)) (holding ?x))))',
              '  (:action put-down :parameters (?x) :precondition (holding ?x)',
              '    :effect (and (not (holding ?x)) (clear ?x) (handempty) (ontable ?x)))',
              '  (:action stack :parameters (?x ?y) :precondition (and (holding ?x) (clear ?y) (not (= ?x ?y)))',
              '    :effect (and (not (holding ?x)) (clear ?x) (handempty)',
              '      (oneof (and (on ?x ?y) (not (clear ?y))) (ontable ?x))))',
              '  (:action unstack :parameters (?x ?y)',
              '    :precondition (and (on ?x ?y) (clear ?x) (handempty) (not (= ?x ?y)))',
              '    :effect (and (clear ?y) (not (on ?x ?y))',
              '      (oneof (and (holding ?x) (not (clear ?x)) (not (handempty))) (ontable ?x)))))')
    b = rng('b', n)
    return d, problem('blocks', ' '.join(b), ['(ontable %s)' % x for x in b] + ['(clear %s)' % x for x in b] + ['(handempty)'],
                      '(and %s)' % ' '.join('(on %s %s)' % (x, y) for x, y in zip(b, b[1:])))

def doors(n):
    """Chain of rooms: looking shows the door open or closed; each case has its way on. Strong."""
    d = lines('(define (domain doors) (:predicates (in ?r) (seen ?r) (open ?r) (link ?a ?b))',
              '  (:action look :parameters (?r) :precondition (and (in ?r) (not (seen ?r)))',
              '    :effect (and (seen ?r) (oneof (open ?r) (not (open ?r)))))',
              '  (:action go :parameters (?a ?b) :precondition (and (in ?a) (link ?a ?b) (seen ?a) (open ?a))',
              '    :effect (and (not (in ?a)) (in ?b)))',
              '  (:action unlock :parameters (?a ?b) :precondition (and (in ?a) (link ?a ?b) (seen ?a) (not (open ?a)))',
              '    :effect (and (not (in ?a)) (in ?b) (open ?a))))')
    r = rng('r', n)
    return d, problem('doors', ' '.join(r), ['(in r1)'] + chain('link', r), '(in r%d)' % n)

def rooms(n):
    """Chain of rooms whose doors are unknown at the start (2^(n-1) initial states); a kick may open one."""
    d = lines('(define (domain rooms) (:predicates (in ?r) (open ?r) (link ?a ?b))',
              '  (:action go :parameters (?a ?b) :precondition (and (in ?a) (link ?a ?b) (open ?a))',
              '    :effect (and (not (in ?a)) (in ?b)))',
              '  (:action kick :parameters (?a) :precondition (and (in ?a) (not (open ?a))) :effect (oneof (open ?a) (and))))')
    r = rng('r', n)
    return d, problem('rooms', ' '.join(r), ['(in r1)'] + chain('link', r) + ['(unknown (open %s))' % x for x in r[:-1]], '(in r%d)' % n)

def triangle(n):
    """Triangle tireworld, side 2n+1: the only safe way goes round the two outer edges."""
    d = lines('(define (domain triangle)', '  (:predicates (vehicle-at ?l) (spare-in ?l) (road ?a ?b) (not-flat) (hasspare))',
              '  (:action move-car :parameters (?a ?b) :precondition (and (vehicle-at ?a) (road ?a ?b) (not-flat))',
              '    :effect (and (vehicle-at ?b) (not (vehicle-at ?a)) (oneof (and) (not (not-flat)))))',
              '  (:action loadtire :parameters (?l) :precondition (and (vehicle-at ?l) (spare-in ?l))',
              '    :effect (and (hasspare) (not (spare-in ?l))))',
              '  (:action changetire :precondition (hasspare) :effect (and (not (hasspare)) (not-flat))))')
    s = 2 * n + 1
    l = lambda i, j: 'l-%d-%d' % (i, j)
    ok = lambda i, j: i >= 1 and j >= 1 and i + j <= s + 1
    road, spare = [], []
    for i in range(1, s + 1):
        for j in range(1, s + 2 - i):
            ways = [(i, j + 1), (i + 1, j), (i - 1, j + 1)] if i % 2 else [(i + 1, j), (i - 1, j + 1)]
            if i % 2 and i > 1 and not (j == 1 or i + j == s + 1):
                ways = [(i, j + 1)]
            road += ['(road %s %s)' % (l(i, j), l(*w)) for w in ways if ok(*w)]
            if i > 1 and (i % 2 == 0 or j == 1 or i + j == s + 1):
                spare.append('(spare-in %s)' % l(i, j))
    objs = ' '.join(l(i, j) for i in range(1, s + 1) for j in range(1, s + 2 - i))
    return d, problem('triangle', objs, ['(vehicle-at l-1-1)', '(not-flat)'] + road + spare, '(vehicle-at %s)' % l(1, s))

def faults(n):
    """n operations; each completes, perhaps with a fault that must be repaired. Strong."""
    d = lines('(define (domain faults) (:predicates (done ?o) (faulty ?o))',
              '  (:action perform :parameters (?o) :precondition (not (done ?o))',
              '    :effect (and (done ?o) (oneof (and) (faulty ?o))))',
              '  (:action repair :parameters (?o) :precondition (faulty ?o) :effect (not (faulty ?o))))')
    return d, problem('faults', ' '.join(rng('o', n)), [], '(forall (?o) (and (done ?o) (not (faulty ?o))))')

def retry(n):
    """As faults, but an operation may fail and leave its part jammed; a repair may fail too. Cyclic."""
    d = lines('(define (domain retry) (:predicates (done ?o) (jammed ?o))',
              '  (:action perform :parameters (?o) :precondition (and (not (done ?o)) (not (jammed ?o)))',
              '    :effect (oneof (done ?o) (jammed ?o)))',
              '  (:action repair :parameters (?o) :precondition (jammed ?o) :effect (oneof (not (jammed ?o)) (and))))')
    return d, problem('retry', ' '.join(rng('o', n)), [], '(forall (?o) (done ?o))')

def counter(n):
    """n-bit counter: an increment, which may reset the whole counter instead. 2^n - 1 layers."""
    b = rng('b', n, 0)[:n]
    acts = []
    for i in range(n):
        low = ' '.join('(not (%s))' % x for x in b[:i])
        acts.append('  (:action inc%d :precondition (and (not (%s)) %s)\n    :effect (oneof (and (%s) %s) (and %s)))' % (
            i, b[i], ' '.join('(%s)' % x for x in b[:i]), b[i], low, ' '.join('(not (%s))' % x for x in b)))
    d = lines('(define (domain counter) (:predicates %s)' % ' '.join('(%s)' % x for x in b), *acts) 
    d = d[:-1] + ')\n'
    return d, lines('(define (problem p) (:domain counter) (:init)', '  (:goal (and %s)))' % ' '.join('(%s)' % x for x in b))

def climb(n):
    """n-bit counter: an increment, whose carry may leave the lower bits set. Strong, 2^n - 1 layers."""
    b = rng('b', n, 0)[:n]
    acts = []
    for i in range(n):
        low = ' '.join('(not (%s))' % x for x in b[:i])
        acts.append('  (:action inc%d :precondition (and (not (%s)) %s)\n    :effect (and (%s) (oneof (and %s) (and))))' % (
            i, b[i], ' '.join('(%s)' % x for x in b[:i]), b[i], low))
    d = lines('(define (domain climb) (:predicates %s)' % ' '.join('(%s)' % x for x in b), *acts)
    d = d[:-1] + ')\n'
    return d, lines('(define (problem p) (:domain climb) (:init)', '  (:goal (and %s)))' % ' '.join('(%s)' % x for x in b))

def beam(n):
    """Beam walk: on the beam each step may be a fall; on the ground walk back to the ladder."""
    d = lines('(define (domain beam) (:predicates (up) (at ?p) (next ?a ?b) (ladder ?p))',
              '  (:action climb :parameters (?p) :precondition (and (at ?p) (ladder ?p) (not (up))) :effect (up))',
              '  (:action walk :parameters (?a ?b) :precondition (and (up) (at ?a) (next ?a ?b))',
              '    :effect (and (not (at ?a)) (at ?b) (oneof (and) (not (up)))))',
              '  (:action back :parameters (?a ?b) :precondition (and (not (up)) (at ?b) (next ?a ?b))',
              '    :effect (and (not (at ?b)) (at ?a))))')
    p = rng('p', n)
    return d, problem('beam', ' '.join(p), ['(at p1)', '(ladder p1)'] + chain('next', p), '(and (up) (at p%d))' % n)

def acrobat(n):
    """Acrobatics: jumping takes two steps of the beam at once but may break the leg, for ever."""
    d = lines('(define (domain acrobat) (:predicates (up) (at ?p) (next ?a ?b) (two ?a ?b) (ladder ?p) (broken))',
              '  (:action jump :parameters (?a ?b) :precondition (and (up) (at ?a) (two ?a ?b) (not (broken)))',
              '    :effect (oneof (and (not (at ?a)) (at ?b)) (and (not (up)) (broken))))',
              '  (:action climb :parameters (?p) :precondition (and (at ?p) (ladder ?p) (not (up)) (not (broken))) :effect (up))',
              '  (:action walk :parameters (?a ?b) :precondition (and (up) (at ?a) (next ?a ?b) (not (broken)))',
              '    :effect (and (not (at ?a)) (at ?b) (oneof (and) (not (up)))))',
              '  (:action back :parameters (?a ?b) :precondition (and (not (up)) (at ?b) (next ?a ?b) (not (broken)))',
              '    :effect (and (not (at ?b)) (at ?a))))')
    p = rng('p', n)
    two = ['(two %s %s)' % (a, b) for a, b in zip(p, p[2:])]
    return d, problem('acrobat', ' '.join(p), ['(at p1)', '(ladder p1)'] + chain('next', p) + two, '(and (up) (at p%d))' % n)

def responders(n):
    """First responders: n places each with a fire and a victim; one water tank; one ambulance and one engine."""
    d = lines('(define (domain responders) (:types place)',
              '  (:predicates (engine ?l - place) (medic ?l - place) (water) (fire ?l - place) (dying ?l - place)',
              '    (hurt ?l - place) (healthy ?l - place) (tank ?l - place) (adj ?a - place ?b - place))',
              '  (:action drive-engine :parameters (?a - place ?b - place) :precondition (and (engine ?a) (adj ?a ?b))',
              '    :effect (and (not (engine ?a)) (engine ?b)))',
              '  (:action drive-medic :parameters (?a - place ?b - place) :precondition (and (medic ?a) (adj ?a ?b) (not (fire ?b)))',
              '    :effect (and (not (medic ?a)) (medic ?b)))',
              '  (:action load :parameters (?l - place) :precondition (and (engine ?l) (tank ?l)) :effect (water))',
              '  (:action douse :parameters (?l - place) :precondition (and (engine ?l) (water) (fire ?l))',
              '    :effect (and (not (water)) (oneof (not (fire ?l)) (and))))',
              '  (:action treat :parameters (?l - place) :precondition (and (medic ?l) (hurt ?l) (not (fire ?l)))',
              '    :effect (oneof (and (not (hurt ?l)) (healthy ?l)) (and)))',
              '  (:action aid :parameters (?l - place) :precondition (and (medic ?l) (dying ?l) (not (fire ?l)))',
              '    :effect (and (not (dying ?l)) (oneof (hurt ?l) (healthy ?l)))))')
    l = rng('l', n)
    adj = chain('adj', l) + chain('adj', l[::-1])
    return d, problem('responders', ' '.join(l) + ' - place',
                      ['(engine l1)', '(medic l1)', '(tank l1)'] + ['(fire %s)' % x for x in l[1:]] +
                      ['(%s %s)' % ('dying' if i % 2 else 'hurt', x) for i, x in enumerate(l)] + adj,
                      '(forall (?l - place) (and (healthy ?l) (not (fire ?l))))')

def elevators(n):
    """One lift, n floors, n passengers; each tells one of two floors when boarding. Strong."""
    d = lines('(define (domain elevators) (:types floor person)',
              '  (:predicates (lift ?f - floor) (in ?p - person) (dest ?p - person ?f - floor) (served ?p - person)',
              '    (waits ?p - person ?f - floor) (may ?p - person ?d - floor ?e - floor) (above ?f - floor ?g - floor))',
              '  (:action up :parameters (?f - floor ?g - floor) :precondition (and (lift ?f) (above ?f ?g))',
              '    :effect (and (not (lift ?f)) (lift ?g)))',
              '  (:action down :parameters (?f - floor ?g - floor) :precondition (and (lift ?g) (above ?f ?g))',
              '    :effect (and (not (lift ?g)) (lift ?f)))',
              '  (:action board :parameters (?p - person ?f - floor ?d - floor ?e - floor)',
              '    :precondition (and (waits ?p ?f) (may ?p ?d ?e) (lift ?f) (not (in ?p)) (not (served ?p)))',
              '    :effect (and (in ?p) (oneof (dest ?p ?d) (dest ?p ?e))))',
              '  (:action leave :parameters (?p - person ?f - floor)',
              '    :precondition (and (lift ?f) (in ?p) (dest ?p ?f))',
              '    :effect (and (not (in ?p)) (not (dest ?p ?f)) (served ?p))))')
    f, p = rng('f', n), rng('p', n)
    init = ['(lift f1)'] + chain('above', f)
    for i in range(n):
        init += ['(waits %s %s)' % (p[i], f[i]), '(may %s %s %s)' % (p[i], f[(i + 1) % n], f[(i * 3 + 2) % n])]
    return d, problem('elevators', ' '.join(f) + ' - floor ' + ' '.join(p) + ' - person', init, '(forall (?p - person) (served ?p))')

def ring(n):
    """Ring of n rooms, each window open or closed and unlocked at the start (unknown); shut and lock them all.
    Closing may need another push."""
    d = lines('(define (domain ring) (:predicates (in ?r) (open ?r) (locked ?r) (next ?a ?b))',
              '  (:action step :parameters (?a ?b) :precondition (and (in ?a) (next ?a ?b)) :effect (and (not (in ?a)) (in ?b)))',
              '  (:action shut :parameters (?r) :precondition (and (in ?r) (open ?r)) :effect (oneof (not (open ?r)) (and)))',
              '  (:action lock :parameters (?r) :precondition (and (in ?r) (not (open ?r))) :effect (locked ?r)))')
    r = rng('r', n)
    return d, problem('ring', ' '.join(r), ['(in r1)'] + chain('next', r + r[:1]) + ['(unknown (open %s))' % x for x in r],
                      '(forall (?r) (and (locked ?r) (not (open ?r))))')

def hunter(n):
    """Hunter and prey on a ring of n cells, moving in turns; the prey moves one step or stays. Caught when met.
    The hunter may move one or two steps on."""
    d = lines('(define (domain hunter) (:predicates (hunter ?c) (prey ?c) (turn) (next ?a ?b) (two ?a ?b))',
              '  (:action step :parameters (?a ?b) :precondition (and (turn) (hunter ?a) (next ?a ?b))',
              '    :effect (and (not (turn)) (not (hunter ?a)) (hunter ?b)))',
              '  (:action leap :parameters (?a ?b) :precondition (and (turn) (hunter ?a) (two ?a ?b))',
              '    :effect (and (not (turn)) (not (hunter ?a)) (hunter ?b)))',
              '  (:action flee :parameters (?a ?b) :precondition (and (not (turn)) (prey ?a) (next ?a ?b))',
              '    :effect (and (turn) (oneof (and) (and (not (prey ?a)) (prey ?b))))))')
    c = rng('c', n)
    ring_ = c + c[:2]
    two = ['(two %s %s)' % (a, b) for a, b in zip(ring_, ring_[2:])]
    return d, problem('hunter', ' '.join(c), ['(turn)', '(hunter c1)', '(prey c%d)' % (n // 2 + 1)] + chain('next', c + c[:1]) + two,
                      '(exists (?c) (and (hunter ?c) (prey ?c)))')

PUSHED = {"corridor": "(open ?a)", "jammed": "(oneof (open ?a) (and))"}


def doors_in_a_row(family, n):
    """A robot in a row of rooms with n doors between them; the door after a room is named by the room."""
    d = lines(f'(define (domain {family})', '  (:predicates (at ?r) (open ?r) (next ?a ?b))',
              '  (:action push :parameters (?a ?b)', '    :precondition (and (at ?a) (next ?a ?b) (not (open ?a)))',
              f'    :effect {PUSHED[family]})',
              '  (:action pass :parameters (?a ?b)', '    :precondition (and (at ?a) (next ?a ?b) (open ?a))',
              '    :effect (and (not (at ?a)) (at ?b))))')
    r = rng('r', n, 0)
    return d, problem(family, ' '.join(r), ['(at r0)'] + chain('next', r) + ['(unknown (open %s))' % x for x in r[:-1]], '(at r%d)' % n)

def corridor(n):
    """A row of n doors, each open or shut at the start, which a push opens: 2^n initial states. Strong, two rules a door."""
    return doors_in_a_row('corridor', n)

def jammed(n):
    """As corridor, but a push may leave the door as it is. Cyclic, two rules a door."""
    return doors_in_a_row('jammed', n)


FAMILIES = {
    make.__name__: make
    for make in (
        acrobat, beam, blocks, cells, climb, corridor, counter, doors, elevators, faults, hunter, jammed, responders, retry, ring,
        rooms, row, slipgrid, triangle, tyres,
    )
}


def main():
    if sys.argv[1:] == ["list"]:
        for name, make in FAMILIES.items():
            print(f"{name}: {' '.join(make.__doc__.split())}")
    elif len(sys.argv) == 4 and sys.argv[1] in FAMILIES and sys.argv[2].isdigit():
        family, size, folder = sys.argv[1:]
        for end, text in zip("dp", FAMILIES[family](int(size))):
            (Path(folder) / f"{family}-{size}.{end}").write_text(text)
    else:
        sys.exit(__doc__)


if __name__ == "__main__":
    main()
