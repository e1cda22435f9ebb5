(define (problem o) (:domain once) (:init) (:goal (g)))
