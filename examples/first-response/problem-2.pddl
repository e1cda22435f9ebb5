; Two fires, and a person of whom nobody knows where she is.
(define (problem two-fires)
  (:domain first-response)
  (:requirements :typing :universal-preconditions :conditional-effects)
  (:objects
    north south lake hill clinic - location
    engine-1 engine-2 - fire-engine
    ambulance-1 - ambulance
    bo eve - victim)
  (:init
    (unit-at engine-1 lake)
    (unit-at engine-2 hill)
    (unit-at ambulance-1 clinic)
    (has-water engine-1)
    (water-at lake)
    (hospital clinic)
    (adjacent lake north) (adjacent north lake)
    (adjacent lake south) (adjacent south lake)
    (adjacent north hill) (adjacent hill north)
    (adjacent south clinic) (adjacent clinic south)
    (adjacent north clinic) (adjacent clinic north)
    (fire north)
    (fire south)
    (victim-at bo hill)
    (hurt bo)
    (oneof
      (and (victim-at eve north) (hurt eve))
      (victim-at eve south)))
  (:goal
    (and
      (forall (?l - location) (not (fire ?l)))
      (forall (?v - victim) (or (safe ?v) (not (hurt ?v)))))))
