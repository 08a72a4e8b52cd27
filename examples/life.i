PLEASE NOTE: LIFE. TAKES EIGHT LINES OF SIXTEEN CELLS, AND PRINTS THE FOUR GENERATIONS AFTER
        THEM. A ROW IS ONE NUMBER, ITS CELLS ARE BITS, AND SIXTEEN CELLS LIVE AND DIE AT ONCE

DO NOTE: ,1 HAS THE BOARD IN ITS ROWS 2 TO 9, AND ,2 THE NEXT ONE. ,3 HAS THE BYTES OF AN
        EMPTY CELL AND OF A LIVING ONE
        DO ,1 <- #10
        DO ,2 <- #10
        PLEASE ,3 <- #3
        DO ,3SUB#1 <- #46
        DO ,3SUB#3 <- #42
        DO .10 <- #1
        PLEASE (20) NEXT
        DO (10) NEXT
        DO GIVE UP

DO NOTE: FOUR TIMES: A GENERATION
(10)    PLEASE (11) NEXT
(11)    DO (12) NEXT
(12)    DO .10 <- #1
        DO (40) NEXT
        PLEASE .10 <- #1
        DO (60) NEXT
        DO (1630) NEXT
        DO RESUME #1

PLEASE NOTE: EIGHT TIMES: A LINE IS READ INTO ROW .10
(20)    DO (21) NEXT
(21)    DO (22) NEXT
(22)    DO (23) NEXT
(23)    PLEASE .1 <- .10
        DO (1020) NEXT
        DO .10 <- .1
        DO (24) NEXT
        PLEASE ,1SUB.10 <- .11
        DO (1600) NEXT
        DO RESUME #1

DO NOTE: SIXTEEN TIMES: A CELL COMES INTO .11 FROM THE RIGHT. BIT 4 IS 0 IN THE BYTE OF A
        LIVING ONE
(24)    PLEASE (25) NEXT
(25)    DO (26) NEXT
(26)    DO (27) NEXT
(27)    DO (28) NEXT
(28)    PLEASE (1600) NEXT
        DO .11 <- '.11$"'?".1~#4"$#1'~#1"'~'#32767$#1'
        DO RESUME #1

DO NOTE: EIGHT TIMES: THE NEXT ROW .10, FROM THE ROWS .12 ABOVE AND .13 BELOW
(40)    PLEASE (41) NEXT
(41)    DO (42) NEXT
(42)    DO (43) NEXT
(43)    DO .12 <- .10
        PLEASE .1 <- .10
        DO (1020) NEXT
        DO .10 <- .1
        DO (1020) NEXT
        PLEASE .13 <- .1

DO NOTE: THE THREE NEIGHBOURS ABOVE MAKE .20 + 2 TIMES .21, THOSE BELOW .22 AND .23, THE TWO
        AT THE SIDES .24 AND .25
        DO .2 <- ,1SUB.12
        DO (45) NEXT
        PLEASE .20 <- .4
        DO .21 <- .5
        DO .2 <- ,1SUB.13
        DO (45) NEXT
        PLEASE .22 <- .4
        DO .23 <- .5
        DO .2 <- ,1SUB.10
        DO (45) NEXT
        PLEASE .24 <- '?.1$.3'~'#0$#65535'
        DO .25 <- '&.1$.3'~'#0$#65535'

DO NOTE: THEIR SUM IS .26 + 2 TIMES .20 + THREE OTHER TWOS
        DO .1 <- .20
        PLEASE .2 <- .22
        DO .3 <- .24
        DO (46) NEXT
        DO .26 <- .4
        PLEASE .20 <- .5
        DO .1 <- .21
        DO .2 <- .23
        DO .3 <- .25
        PLEASE (46) NEXT

DO NOTE: A CELL LIVES IF THERE IS EXACTLY ONE TWO, AND EITHER A ONE OR A CELL THAT LIVED
        DO ,2SUB.10 <- '&"'?.4$.20'~'#0$#65535'"$"'&"'?.5$#65535'~'#0$#65535'"$"'V.26$",1SUB.10"'~
           '#0$#65535'"'~'#0$#65535'"'~'#0$#65535'
        DO RESUME #1

PLEASE NOTE: THE NEIGHBOURS OF .2 AT ITS SIDES ARE .1 AND .3. THE SUM OF ALL THREE IS .4 + 2
        TIMES .5, CELL BY CELL
(45)    DO .1 <- '.2$#0'~'#32767$#1'
        DO .3 <- .2~#65534
(46)    DO .4 <- '?.1$"'?.2$.3'~'#0$#65535'"'~'#0$#65535'
        PLEASE .5 <- 'V"'&.1$.2'~'#0$#65535'"$"'&.3$"'V.1$.2'~'#0$#65535'"'~'#0$#65535'"'~'#0$
           #65535'
        DO RESUME #1

DO NOTE: EIGHT TIMES: ROW .10 IS PRINTED
(60)    DO (61) NEXT
(61)    PLEASE (62) NEXT
(62)    DO (63) NEXT
(63)    DO .1 <- .10
        DO (1020) NEXT
        PLEASE .10 <- .1
        DO .11 <- ,2SUB.10
        DO ,1SUB.10 <- .11
        DO (64) NEXT
        PLEASE (1630) NEXT
        DO RESUME #1

DO NOTE: SIXTEEN TIMES: A CELL
(64)    DO (65) NEXT
(65)    PLEASE (66) NEXT
(66)    DO (67) NEXT
(67)    DO (68) NEXT
(68)    DO .1 <- ,3SUB'".11~#32768"$#1'
        PLEASE (1610) NEXT
        DO .11 <- '.11$#0'~'#32767$#1'
        DO RESUME #1

DO NOTE: BELOW IS WHAT THIS PROGRAM CALLS OF THE LIBRARY

DO NOTE: (1600)  .1 <- THE NEXT BYTE OF THE INPUT, OR #256 AT ITS END
(1600)  DO (1601) NEXT
        PLEASE .1 <- .1601
        DO RESUME #1

DO NOTE: THE SAME INTO .1601. THE BYTE IN FRONT OF IT IS IN .1600
(1601)  DO ,1600 <- #1
        PLEASE WRITE IN ,1600
        DO .1701 <- .1600
        DO .1702 <- ,1600SUB#1
        DO (1700) NEXT
        PLEASE .1600 <- .1703~#255
        DO ,1601 <- #3
        DO ,1601SUB#1 <- .1600
        DO ,1601SUB#3 <- #256
        PLEASE .1601 <- ,1601SUB'"',1600SUB#1'~#256"$#1'
        DO RESUME #1

DO NOTE: (1610)  WRITES THE BYTE .1
(1610)  DO .1611 <- .1

PLEASE NOTE: THE SAME FROM .1611. THE BYTE IN FRONT OF IT IS IN .1610, BOTH WITH THEIR EIGHT
        PLACES TURNED ROUND
(1611)  DO .1611 <- '.1611~#15'$'.1611~#240'
        DO .1611 <- '.1611~#15'$'.1611~#240'
        DO .1611 <- '.1611~#15'$'.1611~#240'
        PLEASE .1701 <- '?.1610$#65535'~'#0$#65535'
        DO .1702 <- .1611
        DO (1700) NEXT
        DO .1610 <- .1611
        PLEASE ,1610 <- #1
        DO ,1610SUB#1 <- '"?.1703$#65535"~"#0$#65535"'~#255
        DO READ OUT ,1610
        DO RESUME #1

PLEASE NOTE: (1630)  WRITES THE END OF A LINE
(1630)  DO .1611 <- #10
        DO (1611) NEXT
        DO RESUME #1

DO NOTE: THE SUM OF 16 BITS. .1703 IS .1701 + .1702, AND .1704 HAS THE CARRY OUT OF EACH
        PLACE
(1700)  DO .1704 <- '&.1701$.1702'~'#0$#65535'
        PLEASE .1705 <- '?.1701$.1702'~'#0$#65535'
        DO .1703 <- .1705

DO NOTE: PLACES THAT MAKE A CARRY ARE IN .1704, THOSE THAT PASS ONE ON IN .1705: OVER 1, 2,
        4 AND 8 PLACES
(1701)  DO .1704 <- 'V.1704$"'&.1705$"'.1704$#0'~'#32767$#1'"'~'#0$#65535'"'~'#0$#65535'
        PLEASE .1705 <- '&.1705$"'.1705$#0'~'#32767$#1'"'~'#0$#65535'
        DO .1704 <- 'V.1704$"'&.1705$"'"'.1704$#0'~'#32767$#1'"$#0'~'#32767$#1'"'~'#0$#65535'"'~'#0$
           #65535'
        DO .1705 <- '&.1705$"'"'.1705$#0'~'#32767$#1'"$#0'~'#32767$#1'"'~'#0$#65535'
        DO .1704 <- 'V.1704$"'&.1705$"'"'"'.1704$#0'~'#32767$#1'"$#0'~'#32767$#1'"$#0'~'#16383$
           #3'"'~'#0$#65535'"'~'#0$#65535'
        PLEASE .1705 <- '&.1705$"'"'"'.1705$#0'~'#32767$#1'"$#0'~'#32767$#1'"$#0'~'#16383$#3'"'~'#0$
           #65535'
        DO .1704 <- 'V.1704$"'&.1705$"'"'"'"'.1704$#0'~'#32767$#1'"$#0'~'#32767$#1'"$#0'~'#16383$
           #3'"$#0'~'#4095$#15'"'~'#0$#65535'"'~'#0$#65535'
        DO .1703 <- '?.1703$"'.1704$#0'~'#32767$#1'"'~'#0$#65535'
        DO RESUME #1

DO NOTE: (1020)  .1 <- .1 PLUS #1, MODULO 65536
(1020)  DO .1701 <- .1
        PLEASE .1702 <- #1
        DO (1700) NEXT
        DO .1 <- .1703
        DO RESUME #1
