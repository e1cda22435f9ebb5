; A tower is to be turned round. Which of the two loose blocks carries the top one isn't known.
(define (problem turned-tower)
  (:domain dropping-blocks)
  (:requirements :typing :equality :disjunctive-preconditions)
  (:objects
    a b c d - block)
  (:init
    (hand-empty)
    (and
      (on-table a)
      (on b a)
      (clear b))
    (on-table c)
    (on-table d)
    (oneof
      (and (clear c) (not (clear d)))
      (and (clear d) (not (clear c)))))
  (:goal
    (and
      (on a b)
      (forall (?x - block)
        (or (= ?x a) (not (holding ?x))))
      (exists (?x - block) (clear ?x)))))
