PLEASE NOTE: A DIE HAS AS MANY ONES IN .1 AS IT SHOWS. .4 HAS BIT 1 FOR A SUM OF 1, BIT 2 FOR
        A SUM OF 2 AND SO ON. .6 HAS THE SUMS THAT WIN, AND .7 THOSE THAT LOSE
        DO .6 <- #1088
        DO .7 <- #2054
(10)    PLEASE FORGET #1
        DO (100) NEXT
        DO .2 <- .1
        PLEASE DO (100) NEXT
        DO .4 <- '?".1$.2"~".1$.2"'~#4095
        DO .1 <- #0
        PLEASE .2 <- #0

DO NOTE: .5 IS 3 FOR A SUM THAT WINS, 2 FOR ONE THAT LOSES, AND 1 FOR OTHERS
        DO .3 <- .4~.7
        DO .3 <- .3~.3
        DO .5 <- .4~"'V.6$.7'~'#0$#65535'"
        PLEASE .5 <- .5~.5
        DO .5 <- .5$'?#1$.3'~#1
        DO (20) NEXT
        DO READ OUT #1
        PLEASE GIVE UP
(20)    DO (30) NEXT
        DO GIVE UP
(30)    DO (40) NEXT
        PLEASE FORGET #2

DO NOTE: THE FIRST SUM WINS FROM NOW ON, AND 7 LOSES
(50)    DO .6 <- .4
        DO .7 <- #64
        DO ABSTAIN FROM (50)
        PLEASE .4 <- #0
        DO .5 <- #0
        DO (10) NEXT
(40)    DO RESUME .5

PLEASE NOTE: THREE COINS MAKE A NUMBER FROM 0 TO 7, WHICH IS NO FACE IF IT IS 0 OR 7
(90)    DO FORGET #1
(100)   DO .1 <- #0
        DO %50 .1 <- #15
        PLEASE %50 .1 <- 'V.1$#48'~'#0$#65535'
        DO %50 .1 <- 'V.1$#64'~'#0$#65535'
        DO .1 <- .1~.1
        PLEASE .5 <- '?".1~#65"'~#1
        DO .5 <- '?.5$#1'~#3
        DO (110) NEXT
        DO RESUME #1
(110)   PLEASE (120) NEXT
        DO FORGET #1
        DO (90) NEXT
(120)   PLEASE RESUME .5
