(define (problem two-parcels)
  (:domain transport)
  (:objects depot mill quarry harbour - place
            lorry - truck
            flour stone - parcel
            none one two - load)
  (:init (at lorry depot) (at flour mill) (at stone quarry)
         (room lorry one) (next none one) (next one two)
         (road depot mill) (road mill depot) (road depot quarry) (road quarry depot)
         (road mill harbour) (road harbour mill) (road quarry harbour) (road harbour quarry)
         (= (length depot mill) 14) (= (length mill depot) 14)
         (= (length depot quarry) 20) (= (length quarry depot) 20)
         (= (length mill harbour) 31) (= (length harbour mill) 31)
         (= (length quarry harbour) 9) (= (length harbour quarry) 9.0)
         (= (total-cost) 0))
  (:goal (and (at flour harbour) (at stone harbour)))
  (:metric minimize (total-cost)))
