(set-logic QF_FF)
(declare-const x (_ FiniteField 3))
(assert (= (ff.mul x x) (as ff-1 (_ FiniteField 3))))
(check-sat)
