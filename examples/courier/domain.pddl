; A robot brings things from room to room. Its way leads through a door, which it may leave open.
(define (domain courier)
  (:requirements :typing :equality :non-deterministic)
  (:types room)
  (:predicates (at ?r - room) (awaits ?r - room) (delivered) (open))
  (:action wait)
  (:action go
    :parameters (?from - room ?to - room)
    :precondition (and (at ?from) (not (= ?from ?to)))
    :effect (and (not (at ?from)) (at ?to) (oneof (open) ())))
  (:action deliver
    :parameters (?r - room)
    :precondition (and (at ?r) (awaits ?r))
    :effect (delivered))
  (:action close
    :precondition (open)
    :effect (not (open))))
