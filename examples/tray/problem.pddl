; From the kitchen to the ward, by the hall or down a ramp.
(define (problem lunch) (:domain tray)
  (:objects kitchen hall ward - place)
  (:init
    (at kitchen)
    (corridor kitchen hall) (corridor hall kitchen)
    (corridor hall ward) (corridor ward hall)
    (ramp kitchen ward))
  (:goal (and (at ward) (not (spilled)))))
