; The law of bridge-3-goal.csv; actions and facts are numbered as they stand here.

(define (domain a1)
  (:predicates
    (bridge-free)
    (a1-on-right-bank)
    (a1-on-bridge)
    (a1-on-left-bank)
    (a2-on-right-bank)
    (a2-on-bridge)
    (a2-on-left-bank))
  (:action gets-on-from-the-right ; action 0, waits for bridge-free
    :parameters ()
    :precondition (and (bridge-free) (a1-on-right-bank))
    :effect (and (a1-on-bridge) (not (bridge-free)) (not (a1-on-right-bank))))
  (:action gets-off-to-the-right ; action 1
    :parameters ()
    :precondition (a1-on-bridge)
    :effect (and (bridge-free) (a1-on-right-bank) (not (a1-on-bridge))))
  (:action gets-on-from-the-left ; action 2, waits for bridge-free
    :parameters ()
    :precondition (and (bridge-free) (a1-on-left-bank))
    :effect (and (a1-on-bridge) (not (bridge-free)) (not (a1-on-left-bank))))
  (:action gets-off-to-the-left ; action 3
    :parameters ()
    :precondition (a1-on-bridge)
    :effect (and (bridge-free) (a1-on-left-bank) (not (a1-on-bridge)))))
(define (problem a1)
  (:domain a1)
  (:init (bridge-free) (a1-on-right-bank) (a2-on-right-bank))
  (:goal (and (a1-on-left-bank))))

(define (domain a2)
  (:predicates
    (bridge-free)
    (a1-on-right-bank)
    (a1-on-bridge)
    (a1-on-left-bank)
    (a2-on-right-bank)
    (a2-on-bridge)
    (a2-on-left-bank))
  (:action gets-on-from-the-right ; action 4, waits for bridge-free
    :parameters ()
    :precondition (and (bridge-free) (a2-on-right-bank))
    :effect (and (a2-on-bridge) (not (bridge-free)) (not (a2-on-right-bank))))
  (:action gets-off-to-the-right ; action 5
    :parameters ()
    :precondition (a2-on-bridge)
    :effect (and (bridge-free) (a2-on-right-bank) (not (a2-on-bridge))))
  (:action gets-on-from-the-left ; action 6, waits for bridge-free
    :parameters ()
    :precondition (and (bridge-free) (a2-on-left-bank))
    :effect (and (a2-on-bridge) (not (bridge-free)) (not (a2-on-left-bank))))
  (:action gets-off-to-the-left ; action 7
    :parameters ()
    :precondition (a2-on-bridge)
    :effect (and (bridge-free) (a2-on-left-bank) (not (a2-on-bridge)))))
(define (problem a2)
  (:domain a2)
  (:init (bridge-free) (a1-on-right-bank) (a2-on-right-bank))
  (:goal (and (a2-on-left-bank))))
