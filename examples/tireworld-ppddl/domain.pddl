;; Tireworld: any drive may burst a tire, and a flat tire is changed where a spare lies.
(define (domain tireworld)
  (:requirements :strips :typing :probabilistic-effects :rewards)
  (:types location)
  (:predicates
    (vehicle-at ?loc - location)
    (spare-in ?loc - location)
    (road ?from - location ?to - location)
    (not-flattire))

  (:action move-car
    :parameters (?from - location ?to - location)
    :precondition (and (vehicle-at ?from) (road ?from ?to) (not-flattire))
    :effect (and
      (not (vehicle-at ?from))
      (vehicle-at ?to)
      (probabilistic 2/5 (not (not-flattire)))))

  (:action changetire
    :parameters (?loc - location)
    :precondition (and (vehicle-at ?loc) (spare-in ?loc))
    :effect (and (not (spare-in ?loc)) (not-flattire))))
