; An order is reserved, paid and shipped by services that may time out.
(define (domain order)
  (:requirements :strips :negative-preconditions :non-deterministic)
  (:predicates (reserved) (paid) (shipped))

  (:action wait)

  ; Each call has its effect, or times out: then it may be made again.
  (:action reserve
    :precondition (not (reserved))
    :effect (oneof (reserved) ()))
  (:action charge
    :precondition (and (reserved) (not (paid)))
    :effect (oneof (paid) ()))
  (:action ship
    :precondition (and (reserved) (not (shipped)))
    :effect (oneof (shipped) ())))
