DO .1 <- .2 IS NOT A BODY
(7) PLEASE NOT %50 DO ,1 SUB #1 <- !1~.2'
DO READ OUT #1 + ,70000 + .1
(7) DO .1 <- #5 $
DO (9) NEXT
