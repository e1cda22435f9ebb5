; The same way by corridors, which may be crowded.
(define (problem crowded) (:domain tray)
  (:objects kitchen pharmacy ward - place)
  (:init
    (at kitchen)
    (corridor kitchen pharmacy) (corridor pharmacy kitchen)
    (corridor pharmacy ward) (corridor ward pharmacy)
    (ramp kitchen ward))
  (:ctl-goal (af (and (at pharmacy) (af (and (at ward) (ag (not (spilled)))))))))
