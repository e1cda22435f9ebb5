; A hand moves blocks, and small towers of two: it takes hold of the lower one, and the upper one
; stays on it. A block that is lifted from another may slip onto the table, one that is lifted from
; the table may stay where it is, and what is put onto a block may slide down beside it.
(define (domain blocks-and-towers)
  (:requirements :strips :typing :equality :non-deterministic)
  (:types block)
  (:predicates
    (on ?a ?b - block)
    (on-table ?a - block)
    (clear ?a - block)
    (holding ?a - block)
    (hand-empty))

  (:action lift
    :parameters (?a ?b - block)
    :precondition (and (not (= ?a ?b)) (hand-empty) (clear ?a) (on ?a ?b))
    :effect (and
      (clear ?b)
      (not (on ?a ?b))
      (oneof
        (and (holding ?a) (not (hand-empty)))
        (on-table ?a))))

  (:action lift-from-table
    :parameters (?a - block)
    :precondition (and (hand-empty) (clear ?a) (on-table ?a))
    :effect (oneof
      (and)
      (and (holding ?a) (not (hand-empty)) (not (on-table ?a)))))

  (:action put-onto
    :parameters (?a ?b - block)
    :precondition (and (not (= ?a ?b)) (holding ?a) (clear ?a) (clear ?b))
    :effect (and
      (not (holding ?a))
      (hand-empty)
      (oneof
        (and (on ?a ?b) (not (clear ?b)))
        (on-table ?a))))

  (:action put-down
    :parameters (?a - block)
    :precondition (holding ?a)
    :effect (and (not (holding ?a)) (hand-empty) (on-table ?a)))

  (:action lift-tower
    :parameters (?a ?b ?c - block)
    :precondition (and
      (not (= ?a ?b)) (not (= ?b ?c)) (not (= ?a ?c))
      (hand-empty) (clear ?a) (on ?a ?b) (on ?b ?c))
    :effect (oneof
      (and)
      (and (holding ?b) (not (hand-empty)) (clear ?c) (not (on ?b ?c)))))

  (:action put-tower-onto
    :parameters (?a ?b ?c - block)
    :precondition (and
      (not (= ?a ?b)) (not (= ?b ?c)) (not (= ?a ?c))
      (holding ?b) (on ?a ?b) (clear ?c))
    :effect (and
      (not (holding ?b))
      (hand-empty)
      (oneof
        (and (on ?b ?c) (not (clear ?c)))
        (on-table ?b)))))
