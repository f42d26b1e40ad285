; Trucks carry parcels along roads; a drive costs the length of its road.
(define (domain transport)
  (:requirements :strips :typing :action-costs)
  (:types place - object
          truck parcel - thing
          load)
  (:predicates (at ?x - thing ?p - place)
               (in ?q - parcel ?t - truck)
               (road ?from ?to - place)
               (room ?t - truck ?n - load)
               (next ?less ?more - load))
  (:functions (total-cost) - number
              (length ?from ?to - place) - number)
  (:action drive
    :parameters (?t - truck ?from ?to - place)
    :precondition (and (at ?t ?from) (road ?from ?to))
    :effect (and (not (at ?t ?from)) (at ?t ?to)
                 (increase (total-cost) (length ?from ?to))))
  (:action pick-up
    :parameters (?t - truck ?q - parcel ?p - place ?less ?more - load)
    :precondition (and (at ?t ?p) (at ?q ?p) (next ?less ?more) (room ?t ?more))
    :effect (and (not (at ?q ?p)) (in ?q ?t) (not (room ?t ?more)) (room ?t ?less)
                 (increase (total-cost) 1)))
  (:action drop
    :parameters (?t - truck ?q - parcel ?p - place ?less ?more - load)
    :precondition (and (at ?t ?p) (in ?q ?t) (next ?less ?more) (room ?t ?less))
    :effect (and (not (in ?q ?t)) (at ?q ?p) (not (room ?t ?less)) (room ?t ?more)
                 (increase (total-cost) 1))))
