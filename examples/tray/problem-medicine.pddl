; The tray goes by the pharmacy, where medicine is put on it, and then to the ward.
(define (problem medicine) (:domain tray)
  (:objects kitchen pharmacy ward - place)
  (:init
    (at kitchen)
    (lift kitchen pharmacy) (lift pharmacy kitchen)
    (lift pharmacy ward) (lift ward pharmacy)
    (ramp kitchen ward))
  (:ctl-goal (af (and (at pharmacy) (af (and (at ward) (ag (not (spilled)))))))))
