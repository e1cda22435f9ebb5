; It must visit the store, then deliver in the ward, and from then on keep the door closed.
(define (problem round) (:domain courier)
  (:objects store - room ward - room)
  (:init (at ward) (awaits ward))
  (:ctl-goal (af (and (at store) (af (and (delivered) (ag (not (open)))))))))
