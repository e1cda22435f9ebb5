(define (problem rounds) (:domain guard)
  (:init (full))
  (:ctl-goal (ag (and (af (at-vault)) (af (not (at-vault)))))))
