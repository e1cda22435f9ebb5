(define (domain porter)
  (:predicates (at ?place) (laden) (beside ?here ?there) (stock ?place))
  (:invariant (and
    (exists (?here) (at ?here))
    (forall (?here ?there) (imply (and (at ?here) (at ?there)) (= ?here ?there)))))
  (:action go
    :parameters (?here ?there)
    :precondition (and (at ?here) (beside ?here ?there))
    :effect (oneof (and (not (at ?here)) (at ?there)) (and)))
  (:action load
    :parameters (?here)
    :precondition (and (at ?here) (stock ?here))
    :effect (laden)))
