; A ramp may be wet, and a tray that is rolled down a wet ramp spills. The robot has to look to know.
(define (domain ramp)
  (:requirements :conditional-effects :negative-preconditions :non-deterministic)
  (:predicates (at-kitchen) (at-ward) (looked) (seen-wet) (spilled))

  ; What the sensor says comes as an outcome.
  (:action look
    :precondition (and (at-kitchen) (not (looked)))
    :effect (and (looked) (oneof (seen-wet) ())))

  (:action mop
    :precondition (and (at-kitchen) (seen-wet))
    :effect (not (seen-wet)))

  ; Whoever didn't look may be lucky.
  (:action roll
    :precondition (at-kitchen)
    :effect (and (not (at-kitchen)) (at-ward)
      (when (seen-wet) (spilled))
      (when (not (looked)) (oneof (spilled) ())))))
