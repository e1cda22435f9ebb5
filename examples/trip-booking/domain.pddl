; A web service books a trip out of several services. Each may refuse; what is
; booked already is then cancelled, the last step first, and a payment is given
; back. Whatever the services answer, the request is closed in the end.
(define (domain trip-booking)
  (:requirements :adl :non-deterministic)
  (:types service)
  (:constants payment - service)
  (:predicates
    (offered ?s - service)
    (requested ?s - service)
    (booked ?s - service)
    (refused ?s - service)
    (cancelled ?s - service)
    (needs ?s ?t - service)
    (paid)
    (refunded)
    (closed))

  (:action book
    :parameters (?s - service)
    :precondition (and
      (offered ?s)
      (requested ?s)
      (not (closed))
      (not (booked ?s))
      (not (refused ?s))
      (not (exists (?t - service) (refused ?t)))
      (forall (?t - service) (imply (needs ?s ?t) (booked ?t))))
    :effect (oneof (booked ?s) (refused ?s)))

  ; The payment is made once everything else is booked, and may be declined.
  (:action pay
    :precondition (and
      (requested payment)
      (not (paid))
      (forall (?s - service) (imply (and (requested ?s) (not (= ?s payment))) (booked ?s))))
    :effect (oneof
      (and (paid) (booked payment))
      (refused payment)))

  (:action cancel
    :parameters (?s - service)
    :precondition (and
      (booked ?s)
      (exists (?t - service) (refused ?t))
      (forall (?t - service) (imply (needs ?t ?s) (not (booked ?t)))))
    :effect (and
      (not (booked ?s))
      (cancelled ?s)
      (when (and (= ?s payment) (paid))
        (and (not (paid)) (refunded)))))

  (:action close
    :precondition (or
      (forall (?s - service) (imply (requested ?s) (booked ?s)))
      (and
        (exists (?s - service) (refused ?s))
        (forall (?s - service) (not (booked ?s)))))
    :effect (closed)))
