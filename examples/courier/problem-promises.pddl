; Nothing is delivered before the store was visited; the first step may leave the door open; and
; wherever it is open, it is closed in the end.
(define (problem promises) (:domain courier)
  (:objects store - room ward - room)
  (:init (at ward) (awaits ward))
  (:ctl-goal (and
    (aw (not (delivered)) (at store))
    (ex (open))
    (ag (imply (open) (af (not (open))))))))
