; Again and again a parcel comes to the dock, and the robot to the shelf with an empty gripper.
(define (problem round-trips) (:domain warehouse)
  (:objects shelf-1 hall dock-1 - place)
  (:init
    (at hall)
    (shelf shelf-1) (dock dock-1)
    (aisle shelf-1 hall) (aisle hall shelf-1)
    (aisle hall dock-1) (aisle dock-1 hall))
  (:ctl-goal (ag (and
    (af (and (at dock-1) (holding)))
    (af (and (at shelf-1) (not (holding))))))))
