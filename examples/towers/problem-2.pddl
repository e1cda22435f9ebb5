; A tower of three blocks and one of two are to be sorted into two others.
(define (problem sorted-towers)
  (:domain blocks-and-towers)
  (:objects
    red green blue white black - block)
  (:init
    (hand-empty)
    (on-table blue) (on red blue) (on green red) (clear green)
    (on-table white) (on black white) (clear black))
  (:goal (and (on red green) (on green black) (on-table black) (on blue white) (on-table white)
    (hand-empty))))
