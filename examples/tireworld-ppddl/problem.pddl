;; The short way, over b, has no spare; the other, over d, has one.
(define (problem tireworld-short-or-safe)
  (:domain tireworld)
  (:objects a b c d - location)
  (:init
    (vehicle-at a)
    (not-flattire)
    (road a b) (road b c)
    (road a d) (road d c)
    (spare-in d))
  (:goal (vehicle-at c))
  (:goal-reward 100)
  (:metric maximize (reward)))
