; Fire engines put fires out with water that they fetch, and ambulances take the
; hurt to a hospital. Water may not suffice, and first aid on the spot may fail.
(define (domain first-response)
  (:requirements :typing :conditional-effects :universal-preconditions
    :disjunctive-preconditions :non-deterministic)
  (:types
    location unit victim - object
    fire-engine ambulance - unit)
  (:predicates
    (adjacent ?a ?b - location)
    (water-at ?l - location)
    (hospital ?l - location)
    (fire ?l - location)
    (unit-at ?u - unit ?l - location)
    (has-water ?u - fire-engine)
    (victim-at ?v - victim ?l - location)
    (aboard ?v - victim ?u - ambulance)
    (hurt ?v - victim)
    (treated ?v - victim)
    (safe ?v - victim))

  (:action move
    :parameters (?u - unit ?from ?to - location)
    :precondition (and
      (unit-at ?u ?from)
      (or (adjacent ?from ?to) (adjacent ?to ?from))
      (not (fire ?to)))
    :effect (and (not (unit-at ?u ?from)) (unit-at ?u ?to)))

  (:action fetch-water
    :parameters (?u - fire-engine ?l - location)
    :precondition (and (unit-at ?u ?l) (water-at ?l) (not (has-water ?u)))
    :effect (has-water ?u))

  (:action fight-fire
    :parameters (?u - fire-engine ?from ?at - location)
    :precondition (and (unit-at ?u ?from) (adjacent ?from ?at) (has-water ?u) (fire ?at))
    :effect (and
      (not (has-water ?u))
      (oneof (not (fire ?at)) (and))))

  (:action take-aboard
    :parameters (?u - ambulance ?l - location ?v - victim)
    :precondition (and (unit-at ?u ?l) (victim-at ?v ?l))
    :effect (and (not (victim-at ?v ?l)) (aboard ?v ?u)))

  ; Whoever is aboard gets out at the hospital, and needs no more help.
  (:action unload
    :parameters (?u - ambulance ?l - location)
    :precondition (and (unit-at ?u ?l) (hospital ?l))
    :effect (forall (?v - victim)
      (when (aboard ?v ?u)
        (and (not (aboard ?v ?u)) (victim-at ?v ?l) (treated ?v) (safe ?v)))))

  (:action first-aid
    :parameters (?u - unit ?l - location ?v - victim)
    :precondition (and (unit-at ?u ?l) (victim-at ?v ?l) (hurt ?v) (not (treated ?v)))
    :effect (and
      (treated ?v)
      (oneof (and (not (hurt ?v)) (safe ?v)) (and)))))
