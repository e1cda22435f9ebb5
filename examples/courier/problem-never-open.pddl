; The door is never open, which no plan that visits the store can promise.
(define (problem never) (:domain courier)
  (:objects store - room ward - room)
  (:init (at ward) (awaits ward))
  (:ctl-goal (ag (not (open)))))
