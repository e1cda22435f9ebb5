; One engine, one ambulance, one fire and one person who is hurt.
(define (problem one-fire)
  (:domain first-response)
  (:requirements :strips :typing :non-deterministic)
  (:objects
    depot square clinic - location
    engine-1 - fire-engine
    ambulance-1 - ambulance
    ada - victim)
  (:init
    (unit-at engine-1 depot)
    (unit-at ambulance-1 clinic)
    (water-at depot)
    (hospital clinic)
    (adjacent depot square)
    (adjacent square depot)
    (adjacent square clinic)
    (adjacent clinic square)
    (fire square)
    (victim-at ada square)
    (hurt ada))
  (:goal
    (and
      (not (fire square))
      (safe ada))))
