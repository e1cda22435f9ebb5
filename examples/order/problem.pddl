; Reserved first, then paid, and nothing is shipped until then; at last it is shipped, and stays so.
(define (problem parcel) (:domain order)
  (:init)
  (:ctl-goal
    (af (and (reserved)
      (au (not (shipped)) (and (paid)
        (af (and (shipped) (ag (and (paid) (shipped)))))))))))
