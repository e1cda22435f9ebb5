; A flight and a hotel, of which the hotel is of use only with the flight.
(define (problem weekend)
  (:domain trip-booking)
  (:requirements :strips :typing :non-deterministic)
  (:objects
    flight hotel - service)
  (:init
    (offered flight)
    (offered hotel)
    (offered payment)
    (needs hotel flight)
    (needs payment hotel)
    (requested flight)
    (requested hotel))
  (:goal
    (and
      (closed)
      (or
        ; either everything is booked and paid ..
        (and (booked flight) (booked hotel) (paid))
        ; .. or nothing is left over
        (and (not (booked flight)) (not (booked hotel)) (not (paid)))))))
