; A ring of places that is driven in one direction. Nobody knows whether the depot at the harbour is open.
(DEFINE (PROBLEM Round-Trip)
  (:DOMAIN Tyres)
  (:requirements :typing :non-deterministic)
  (:objects
    station market harbour - place
    castle park - place)
  (:init
    (vehicle-at station)
    (road station market)
    (road market harbour)
    (road harbour castle)
    (road castle park)
    (road park station)
    (spare-at market)
    (spare-at castle)
    (unknown (spare-at harbour))
    (oneof (workshop castle) (workshop park)))
  (:goal
    (and
      (vehicle-at park)
      (not (flat))))
  (:metric minimize (total-time)))
