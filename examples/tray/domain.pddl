; A robot brings a tray with food from the kitchen of a hospital to a ward.
(define (domain tray)
  (:requirements :strips :typing :negative-preconditions :non-deterministic)
  (:types place)
  (:predicates
    (at ?p - place)
    (corridor ?a ?b - place)
    (ramp ?a ?b - place)
    (lift ?a ?b - place)
    (spilled))

  (:action wait)

  ; A corridor may be crowded: then the robot stays where it is.
  (:action drive
    :parameters (?a ?b - place)
    :precondition (and (at ?a) (corridor ?a ?b))
    :effect (oneof (and (not (at ?a)) (at ?b)) ()))

  ; On a ramp the food may spill.
  (:action roll
    :parameters (?a ?b - place)
    :precondition (and (at ?a) (ramp ?a ?b))
    :effect (and (not (at ?a)) (at ?b) (oneof () (spilled))))

  ; A lift always arrives.
  (:action ride
    :parameters (?a ?b - place)
    :precondition (and (at ?a) (lift ?a ?b))
    :effect (and (not (at ?a)) (at ?b))))
