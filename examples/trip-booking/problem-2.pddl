; A longer trip. The customer may have asked for a car already, and one of two hotels has a room.
(define (problem summer)
  (:domain trip-booking)
  (:requirements :typing :disjunctive-preconditions)
  (:objects
    flight car - service
    hotel-sea hotel-town - service)
  (:init
    (offered flight)
    (offered car)
    (offered payment)
    (oneof (offered hotel-sea) (offered hotel-town))
    (needs car flight)
    (needs hotel-sea flight)
    (needs hotel-town flight)
    (needs payment flight)
    (requested flight)
    (unknown (requested car)))
  (:goal
    (and
      (closed)
      (imply (booked flight) (paid))
      (imply (paid) (or (booked hotel-sea) (booked hotel-town)))
      (forall (?s ?t - service)
        (imply (and (booked ?s) (needs ?s ?t)) (booked ?t)))
      (not (and (paid) (refunded)))))
  (:goal-reward 100))
