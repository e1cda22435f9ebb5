;; From the store to the office, whole.
(define (problem delivery-to-the-office)
  (:domain delivery)
  (:objects store office - room)
  (:init
    (robot-at store)
    (parcel-at store)
    (door store office)
    (door office store))
  (:goal (and (parcel-at office) (not (broken))))
  (:goal-reward 10)
  (:metric maximize (reward)))
