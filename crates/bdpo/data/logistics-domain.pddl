; Trucks drive within a city, aeroplanes fly between airports. The hub is an airport of every problem.
(define (domain logistics)
  (:requirements :strips :typing :equality)
  (:types city place thing - object
          airport - place
          package vehicle - thing
          truck aeroplane - vehicle)
  (:constants hub - airport capital - city)
  (:predicates (within ?p - place ?c - city) (at ?x - thing ?p - place) (in ?q - package ?v - vehicle))
  (:action load
    :parameters (?q - package ?v - vehicle ?p - place)
    :precondition (and (at ?q ?p) (at ?v ?p))
    :effect (and (not (at ?q ?p)) (in ?q ?v)))
  (:action unload
    :parameters (?q - package ?v - vehicle ?p - place)
    :precondition (and (in ?q ?v) (at ?v ?p))
    :effect (and (not (in ?q ?v)) (at ?q ?p)))
  (:action drive
    :parameters (?t - truck ?from ?to - place ?c - city)
    :precondition (and (at ?t ?from) (within ?from ?c) (within ?to ?c) (not (= ?from ?to)))
    :effect (and (not (at ?t ?from)) (at ?t ?to)))
  (:action fly-to-hub
    :parameters (?a - aeroplane ?from - airport)
    :precondition (and (at ?a ?from) (not (= ?from hub)))
    :effect (and (not (at ?a ?from)) (at ?a hub)))
  (:action fly-from-hub
    :parameters (?a - aeroplane ?to - airport)
    :precondition (and (at ?a hub) (not (= ?to hub)))
    :effect (and (not (at ?a hub)) (at ?a ?to))))
