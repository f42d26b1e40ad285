(define (problem one-letter)
  (:domain logistics)
  (:objects coast - city
            station - place
            pier - airport
            van cart - truck
            glider - aeroplane
            letter - package)
  (:init (within hub capital) (within station capital) (within pier coast)
         (at van station) (at cart pier) (at glider pier) (at letter station))
  (:goal (and (at letter pier) (at van station))))
