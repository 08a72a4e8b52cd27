PLEASE NOTE: ABE SAYS THAT JOE LIES, JOE SAYS THAT SUE LIES, AND SUE SAYS THAT ABE AND JOE
        BOTH LIE. WHOM CAN YOU BELIEVE?
        DO ,9 <- #7
        DO ,9SUB#1 <- #190  DO ,9SUB#2 <- #156  PLEASE ,9SUB#3 <- #112  DO ,9SUB#4 <- #160
        DO ,9SUB#5 <- #240  DO ,9SUB#6 <- #56  PLEASE ,9SUB#7 <- #200
        DO ,1 <- #4
        DO ,1SUB#1 <- #162  DO ,1SUB#2 <- #130  PLEASE ,1SUB#3 <- #60  DO ,1SUB#4 <- #160
        DO ,2 <- #4
        DO ,2SUB#1 <- #162  PLEASE ,2SUB#2 <- #178  DO ,2SUB#3 <- #92  DO ,2SUB#4 <- #80
        DO ,3 <- #4
        PLEASE ,3SUB#1 <- #162  DO ,3SUB#2 <- #58  DO ,3SUB#3 <- #28  DO ,3SUB#4 <- #8
        PLEASE READ OUT ,9

DO NOTE: EACH OF THE THREE IS HONEST OR NOT
        DO %50 (1) NEXT
        DO %50 (2) NEXT
        PLEASE %50 (3) NEXT

DO NOTE: THE HONEST SAY WHAT IS TRUE, AND THE OTHERS WHAT IS FALSE: IF SO, EACH SUBSCRIPT IS
        1, AND ,4 HAS NO OTHER. ITS ELEMENT ENDS THE LINE
        DO ,4 <- #1
        DO ,4SUB'"?.1$.2"~#1' <- #86
        PLEASE ,4SUB'"?.2$.3"~#1' <- #86
        DO ,4SUB'"?.3$'"V.1$.2"~#1'"~#1' <- #86
        DO READ OUT ,4
        DO GIVE UP
(1)     PLEASE .1 <- #1
        DO READ OUT ,1
        DO RESUME #1
(2)     DO .2 <- #1
        PLEASE READ OUT ,2
        DO RESUME #1
(3)     DO .3 <- #1
        DO READ OUT ,3
        PLEASE RESUME #1
