; A robot carries parcels through a warehouse, with a gripper that slips now and then.
(define (domain warehouse)
  (:requirements :strips :typing :negative-preconditions :non-deterministic)
  (:types place)
  (:predicates
    (at ?p - place)
    (aisle ?a ?b - place)
    (shelf ?p - place)
    (dock ?p - place)
    (holding))

  ; An aisle may be blocked: then the robot stays where it is.
  (:action drive
    :parameters (?a ?b - place)
    :precondition (and (at ?a) (aisle ?a ?b))
    :effect (oneof (and (not (at ?a)) (at ?b)) ()))

  ; The gripper takes a parcel, or slips.
  (:action grip
    :parameters (?p - place)
    :precondition (and (at ?p) (shelf ?p) (not (holding)))
    :effect (oneof (holding) ()))

  (:action set-down
    :parameters (?p - place)
    :precondition (and (at ?p) (dock ?p) (holding))
    :effect (not (holding))))
