; A hand moves blocks one by one, or two at a time as a small tower. A block
; may slip out of the hand: then it falls onto the table.
(define (domain dropping-blocks)
  (:requirements :strips :typing :equality :non-deterministic)
  (:types block)
  (:predicates
    (on ?a ?b - block)
    (on-table ?a - block)
    (clear ?a - block)
    (holding ?a - block)
    (hand-empty))

  (:action pick-up
    :parameters (?a ?b - block)
    :precondition (and (not (= ?a ?b)) (hand-empty) (clear ?a) (on ?a ?b))
    :effect (and
      (clear ?b)
      (not (on ?a ?b))
      (oneof
        (and (holding ?a) (not (hand-empty)) (not (clear ?a)))
        (on-table ?a))))

  (:action pick-up-from-table
    :parameters (?a - block)
    :precondition (and (hand-empty) (clear ?a) (on-table ?a))
    :effect (oneof
      (and)
      (and (holding ?a) (not (hand-empty)) (not (clear ?a)) (not (on-table ?a)))))

  (:action put-on
    :parameters (?a ?b - block)
    :precondition (and (holding ?a) (clear ?b))
    :effect (and
      (not (holding ?a))
      (hand-empty)
      (clear ?a)
      (oneof
        (and (on ?a ?b) (not (clear ?b)))
        (on-table ?a))))

  (:action put-down
    :parameters (?a - block)
    :precondition (holding ?a)
    :effect (and (not (holding ?a)) (hand-empty) (clear ?a) (on-table ?a))))
