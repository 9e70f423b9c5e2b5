; The law of crossroads-2-waiting.csv; actions and facts are numbered as they stand here.

(define (domain a1)
  (:predicates
    (a1-at-left)
    (a1-at-middle)
    (a1-at-right)
    (a2-at-top)
    (a2-at-middle)
    (a2-at-bottom)
    (left-free)
    (right-free)
    (top-free)
    (bottom-free)
    (middle-free))
  (:action moves-left-to-middle ; action 0, waits for middle-free
    :parameters ()
    :precondition (and (a1-at-left) (middle-free))
    :effect (and (a1-at-middle) (left-free) (not (a1-at-left)) (not (middle-free))))
  (:action moves-middle-to-left ; action 1, waits for left-free
    :parameters ()
    :precondition (and (a1-at-middle) (left-free))
    :effect (and (a1-at-left) (middle-free) (not (a1-at-middle)) (not (left-free))))
  (:action moves-middle-to-right ; action 2, waits for right-free
    :parameters ()
    :precondition (and (a1-at-middle) (right-free))
    :effect (and (a1-at-right) (middle-free) (not (a1-at-middle)) (not (right-free))))
  (:action moves-right-to-middle ; action 3, waits for middle-free
    :parameters ()
    :precondition (and (a1-at-right) (middle-free))
    :effect (and (a1-at-middle) (right-free) (not (a1-at-right)) (not (middle-free)))))
(define (problem a1)
  (:domain a1)
  (:init (a1-at-left) (a2-at-top) (right-free) (bottom-free) (middle-free))
  (:goal (and (a1-at-right))))

(define (domain a2)
  (:predicates
    (a1-at-left)
    (a1-at-middle)
    (a1-at-right)
    (a2-at-top)
    (a2-at-middle)
    (a2-at-bottom)
    (left-free)
    (right-free)
    (top-free)
    (bottom-free)
    (middle-free))
  (:action moves-top-to-middle ; action 4, waits for middle-free
    :parameters ()
    :precondition (and (a2-at-top) (middle-free))
    :effect (and (a2-at-middle) (top-free) (not (a2-at-top)) (not (middle-free))))
  (:action moves-middle-to-top ; action 5, waits for top-free
    :parameters ()
    :precondition (and (a2-at-middle) (top-free))
    :effect (and (a2-at-top) (middle-free) (not (a2-at-middle)) (not (top-free))))
  (:action moves-middle-to-bottom ; action 6, waits for bottom-free
    :parameters ()
    :precondition (and (a2-at-middle) (bottom-free))
    :effect (and (a2-at-bottom) (middle-free) (not (a2-at-middle)) (not (bottom-free))))
  (:action moves-bottom-to-middle ; action 7, waits for middle-free
    :parameters ()
    :precondition (and (a2-at-bottom) (middle-free))
    :effect (and (a2-at-middle) (bottom-free) (not (a2-at-bottom)) (not (middle-free)))))
(define (problem a2)
  (:domain a2)
  (:init (a1-at-left) (a2-at-top) (right-free) (bottom-free) (middle-free))
  (:goal (and (a2-at-bottom))))
