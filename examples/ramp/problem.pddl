(define (problem careful) (:domain ramp)
  (:init (at-kitchen))
  (:goal (and (at-ward) (not (spilled)))))
