;; A robot brings a parcel from room to room. Its gripper is unreliable, and its wheels slip. It can
;; also throw the parcel through a door; then the parcel may break.
(define (domain delivery)
  (:requirements :typing :negative-preconditions :probabilistic-effects :rewards)
  (:types room)
  (:predicates
    (robot-at ?r - room)
    (parcel-at ?r - room)
    (door ?a ?b - room)
    (holding)
    (broken))

  (:action go
    :parameters (?a ?b - room)
    :precondition (and (robot-at ?a) (door ?a ?b))
    :effect (probabilistic
      0.85 (and (not (robot-at ?a)) (robot-at ?b))
      0.15 (and)))

  ; with a quarter of the chances nothing is gripped
  (:action pick
    :parameters (?r - room)
    :precondition (and (robot-at ?r) (parcel-at ?r) (not (holding)))
    :effect (probabilistic 0.75 (and (not (parcel-at ?r)) (holding))))

  (:action drop
    :parameters (?r - room)
    :precondition (and (robot-at ?r) (holding))
    :effect (and (not (holding)) (parcel-at ?r)))

  (:action throw
    :parameters (?a ?b - room)
    :precondition (and (robot-at ?a) (door ?a ?b) (holding))
    :effect (and
      (not (holding))
      (parcel-at ?b)
      (probabilistic 1/10 (broken)))))
