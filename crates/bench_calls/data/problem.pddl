(define (problem night) (:domain watch)
  (:init (at-gate))
  (:ctl-goal (ag (and (af (at-gate)) (af (at-tower))))))
