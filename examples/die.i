PLEASE NOTE: THREE COINS MAKE A NUMBER FROM 0 TO 7. 0 AND 7 ARE NO FACE OF A DIE, AND THE
        COINS ARE TAKEN UP AGAIN
(10)    DO FORGET #1
        DO .1 <- #0
        DO %50 .1 <- #4
        PLEASE %50 .1 <- 'V.1$#2'~'#0$#65535'
        DO %50 .1 <- 'V.1$#1'~'#0$#65535'

DO NOTE: .2 IS 1 IF SOME COINS SHOW 1 AND SOME 0: .1~.1 IS 1 OR 3 THEN, AND ELSE 0 OR 7
        DO .2 <- '?".1~.1"~#5'~#1
        PLEASE .5 <- '?.2$#1'~#3
        DO (20) NEXT
        DO READ OUT .1
        DO GIVE UP
(20)    PLEASE (30) NEXT
        DO FORGET #1
        DO (10) NEXT
(30)    DO RESUME .5
