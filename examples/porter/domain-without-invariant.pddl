(define (domain porter)
  (:predicates (at ?place) (laden) (beside ?here ?there) (stock ?place))
  (:action go
    :parameters (?here ?there)
    :precondition (and (at ?here) (beside ?here ?there))
    :effect (oneof (and (not (at ?here)) (at ?there)) (and)))
  (:action load
    :parameters (?here)
    :precondition (and (at ?here) (stock ?here))
    :effect (laden)))
