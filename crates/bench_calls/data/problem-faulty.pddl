(define (problem night) (:domain watch)
  (:init (= (cost) 0)) (:goal (bell)))
