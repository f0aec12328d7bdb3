; two faults, and a warning
(define (square x) (* x x))
(print (square 3)))
(print ())
