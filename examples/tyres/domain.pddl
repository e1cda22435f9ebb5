; A car drives from place to place, and any drive may burst a tyre. With a
; flat tyre the car stays where it is until the tyre is changed, which takes a
; spare that lies at the place, one that the car carries, or a workshop.
(define (domain tyres)
  (:requirements :strips :typing :negative-preconditions :non-deterministic)
  (:types place)
  (:predicates
    (vehicle-at ?l - place)
    (road ?a ?b - place)
    (spare-at ?l - place)
    (workshop ?l - place)
    (carries-spare)
    (flat))

  (:action drive
    :parameters (?from ?to - place)
    :precondition (and (vehicle-at ?from) (road ?from ?to) (not (flat)))
    :effect (and
      (not (vehicle-at ?from))
      (vehicle-at ?to)
      (oneof (and) (flat))))

  (:action load-spare
    :parameters (?l - place)
    :precondition (and (vehicle-at ?l) (spare-at ?l) (not (carries-spare)))
    :effect (and (not (spare-at ?l)) (carries-spare)))

  ; The jack slips now and then: then nothing has changed.
  (:action change-tyre
    :precondition (and (flat) (carries-spare))
    :effect (oneof
      (and (not (flat)) (not (carries-spare)))
      (and)))

  (:action repair
    :parameters (?l - place)
    :precondition (and (vehicle-at ?l) (workshop ?l) (flat))
    :effect (not (flat))))
