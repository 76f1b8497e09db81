; A circuit that tests x for zero: out = 1 - x*inv. Can two provers give one x two outputs?
(set-logic QF_FF)
(define-sort F () (_ FiniteField 2013265921))
(define-fun is_zero ((x F) (inv F) (out F)) Bool
  (= out (ff.add (as ff1 F) (ff.neg (ff.mul x inv)))))
(declare-const x F)
(declare-const inv1 F)
(declare-const out1 F)
(declare-const inv2 F)
(declare-const out2 F)
(assert (! (is_zero x inv1 out1) :named first))
(assert (! (is_zero x inv2 out2) :named second))
(assert (! (not (= out1 out2)) :named differ))
(check-sat)
