; The law of zenotravel-1-no-law.csv; actions and facts are numbered as they stand here.

(define (domain plane1)
  (:predicates
    (plane1-at-A)
    (plane1-at-B)
    (plane2-at-A)
    (plane2-at-B)
    (x-at-A)
    (x-at-B)
    (y-at-A)
    (y-at-B)
    (x-in-plane1)
    (x-in-plane2)
    (y-in-plane1)
    (y-in-plane2))
  (:action flies-to-B ; action 0
    :parameters ()
    :precondition (plane1-at-A)
    :effect (and (plane1-at-B) (not (plane1-at-A))))
  (:action flies-to-A ; action 1
    :parameters ()
    :precondition (plane1-at-B)
    :effect (and (plane1-at-A) (not (plane1-at-B))))
  (:action x-boards-plane1-at-A ; action 2
    :parameters ()
    :precondition (and (plane1-at-A) (x-at-A))
    :effect (and (x-in-plane1) (not (x-at-A))))
  (:action x-leaves-plane1-at-A ; action 3
    :parameters ()
    :precondition (and (plane1-at-A) (x-in-plane1))
    :effect (and (x-at-A) (not (x-in-plane1))))
  (:action x-boards-plane1-at-B ; action 4
    :parameters ()
    :precondition (and (plane1-at-B) (x-at-B))
    :effect (and (x-in-plane1) (not (x-at-B))))
  (:action x-leaves-plane1-at-B ; action 5
    :parameters ()
    :precondition (and (plane1-at-B) (x-in-plane1))
    :effect (and (x-at-B) (not (x-in-plane1))))
  (:action y-boards-plane1-at-A ; action 6
    :parameters ()
    :precondition (and (plane1-at-A) (y-at-A))
    :effect (and (y-in-plane1) (not (y-at-A))))
  (:action y-leaves-plane1-at-A ; action 7
    :parameters ()
    :precondition (and (plane1-at-A) (y-in-plane1))
    :effect (and (y-at-A) (not (y-in-plane1))))
  (:action y-boards-plane1-at-B ; action 8
    :parameters ()
    :precondition (and (plane1-at-B) (y-at-B))
    :effect (and (y-in-plane1) (not (y-at-B))))
  (:action y-leaves-plane1-at-B ; action 9
    :parameters ()
    :precondition (and (plane1-at-B) (y-in-plane1))
    :effect (and (y-at-B) (not (y-in-plane1)))))
(define (problem plane1)
  (:domain plane1)
  (:init (plane1-at-A) (plane2-at-A) (x-at-A) (y-at-A))
  (:goal (and (x-at-B))))

(define (domain plane2)
  (:predicates
    (plane1-at-A)
    (plane1-at-B)
    (plane2-at-A)
    (plane2-at-B)
    (x-at-A)
    (x-at-B)
    (y-at-A)
    (y-at-B)
    (x-in-plane1)
    (x-in-plane2)
    (y-in-plane1)
    (y-in-plane2))
  (:action flies-to-B ; action 10
    :parameters ()
    :precondition (plane2-at-A)
    :effect (and (plane2-at-B) (not (plane2-at-A))))
  (:action flies-to-A ; action 11
    :parameters ()
    :precondition (plane2-at-B)
    :effect (and (plane2-at-A) (not (plane2-at-B))))
  (:action x-boards-plane2-at-A ; action 12
    :parameters ()
    :precondition (and (plane2-at-A) (x-at-A))
    :effect (and (x-in-plane2) (not (x-at-A))))
  (:action x-leaves-plane2-at-A ; action 13
    :parameters ()
    :precondition (and (plane2-at-A) (x-in-plane2))
    :effect (and (x-at-A) (not (x-in-plane2))))
  (:action x-boards-plane2-at-B ; action 14
    :parameters ()
    :precondition (and (plane2-at-B) (x-at-B))
    :effect (and (x-in-plane2) (not (x-at-B))))
  (:action x-leaves-plane2-at-B ; action 15
    :parameters ()
    :precondition (and (plane2-at-B) (x-in-plane2))
    :effect (and (x-at-B) (not (x-in-plane2))))
  (:action y-boards-plane2-at-A ; action 16
    :parameters ()
    :precondition (and (plane2-at-A) (y-at-A))
    :effect (and (y-in-plane2) (not (y-at-A))))
  (:action y-leaves-plane2-at-A ; action 17
    :parameters ()
    :precondition (and (plane2-at-A) (y-in-plane2))
    :effect (and (y-at-A) (not (y-in-plane2))))
  (:action y-boards-plane2-at-B ; action 18
    :parameters ()
    :precondition (and (plane2-at-B) (y-at-B))
    :effect (and (y-in-plane2) (not (y-at-B))))
  (:action y-leaves-plane2-at-B ; action 19
    :parameters ()
    :precondition (and (plane2-at-B) (y-in-plane2))
    :effect (and (y-at-B) (not (y-in-plane2)))))
(define (problem plane2)
  (:domain plane2)
  (:init (plane1-at-A) (plane2-at-A) (x-at-A) (y-at-A))
  (:goal (and (y-at-B))))
