; A short trip. The direct road to the coast has no spare on the way; the longer one has two.
(define (problem to-the-coast)
  (:domain tyres)
  (:requirements :strips :typing :non-deterministic)
  (:objects
    home mill bridge village coast - place)
  (:init
    (vehicle-at home)
    (carries-spare)
    ; the direct way
    (road home bridge)
    (road bridge coast)
    ; the way through the village
    (road home mill)
    (road mill village)
    (road village coast)
    (spare-at mill)
    (spare-at village)
    (workshop home))
  (:goal
    (and
      (vehicle-at coast)
      (not (flat)))))
