(define (domain guard)
  (:predicates (at-vault) (full) (empty))
  (:action charge
    :precondition (not (at-vault))
    :effect (and (full) (not (empty))))
  (:action to-gate
    :precondition (and (at-vault) (not (empty)))
    :effect (and (not (at-vault))
                 (oneof (and) (and (not (full)) (when (not (full)) (empty))))))
  (:action to-vault
    :precondition (and (not (at-vault)) (not (empty)))
    :effect (and (at-vault)
                 (oneof (and) (and (not (full)) (when (not (full)) (empty)))))))
