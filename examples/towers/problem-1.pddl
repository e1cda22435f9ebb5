; Two towers of two blocks each are to become one of four.
(define (problem one-tower-of-four)
  (:domain blocks-and-towers)
  (:objects
    red green blue white - block)
  (:init
    (hand-empty)
    (on-table green) (on red green) (clear red)
    (on-table white) (on blue white) (clear blue))
  (:goal (and (on red green) (on green blue) (on blue white) (on-table white) (hand-empty))))
