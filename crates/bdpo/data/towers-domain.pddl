; Discs lie on pegs and on larger discs.
(define (domain towers)
  (:predicates (clear ?x) (on ?x ?y) (smaller ?y ?x))
  (:action move
    :parameters (?disc ?from ?to)
    :precondition (and (smaller ?to ?disc) (on ?disc ?from) (clear ?disc) (clear ?to))
    :effect (and (clear ?from) (on ?disc ?to) (not (on ?disc ?from)) (not (clear ?to)))))
