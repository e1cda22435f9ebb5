; Three blocks on the table are to be a tower. A block that is put down may fall beside the tower.
(define (problem tower-of-three)
  (:domain dropping-blocks)
  (:requirements :strips :typing :non-deterministic)
  (:objects
    red green blue - block)
  (:init
    (hand-empty)
    (on-table red)
    (clear red)
    (on-table green)
    (clear green)
    (on-table blue)
    (clear blue))
  (:goal
    (and
      (on red green)
      (on green blue)
      (on-table blue)
      (hand-empty)
      (clear red))))
