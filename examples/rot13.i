PLEASE NOTE: EACH LETTER OF THE INPUT BECOMES THE ONE THIRTEEN PLACES ON. ,1 HAS AT N + 1
        WHAT A BYTE N BECOMES
        DO ,1 <- #256
        DO (10) NEXT

DO NOTE: THE LETTERS FROM A AND FROM N CHANGE PLACES, AND SO THE SMALL ONES
        PLEASE .10 <- #65
        DO .11 <- #78
        DO (20) NEXT
        DO .10 <- #97
        PLEASE .11 <- #110
        DO (20) NEXT

DO NOTE: FROM HERE ON BYTE BY BYTE, UP TO THE END, WHICH IS 256
(30)    DO FORGET #1
        PLEASE (1600) NEXT
        DO .5 <- '?".1~#256"$#1'~#3
        DO (31) NEXT
        DO GIVE UP
(31)    PLEASE (1001) NEXT
        DO FORGET #1
        DO (1020) NEXT
        DO .1 <- ,1SUB.1
        PLEASE (1610) NEXT
        DO (30) NEXT

DO NOTE: 256 TIMES: EACH BYTE BECOMES ITSELF AT FIRST
(10)    DO (11) NEXT
(11)    PLEASE (12) NEXT
(12)    DO (13) NEXT
(13)    DO (14) NEXT
(14)    DO (15) NEXT
(15)    PLEASE (16) NEXT
(16)    DO (17) NEXT
(17)    DO (18) NEXT
(18)    DO .2 <- .1
        PLEASE (1020) NEXT
        DO ,1SUB.1 <- .2
        DO RESUME #1

DO NOTE: ONCE AND THREE TIMES FOUR TIMES: .10 AND .11 CHANGE PLACES, AND BOTH GO ON BY ONE
(20)    PLEASE (23) NEXT
        DO (21) NEXT
        DO (21) NEXT
(21)    DO (22) NEXT
(22)    PLEASE (23) NEXT
(23)    DO .1 <- .10
        DO (1020) NEXT
        DO ,1SUB.1 <- .11
        PLEASE .12 <- .10
        DO .10 <- .1
        DO .1 <- .11
        DO (1020) NEXT
        PLEASE ,1SUB.1 <- .12
        DO .11 <- .1
        DO RESUME #1

DO NOTE: BELOW IS WHAT THIS PROGRAM CALLS OF THE LIBRARY

DO NOTE: (1600)  .1 <- THE NEXT BYTE OF THE INPUT, OR #256 AT ITS END
(1600)  DO (1601) NEXT
        PLEASE .1 <- .1601
        DO RESUME #1

DO NOTE: THE SAME INTO .1601. THE BYTE IN FRONT OF IT IS IN .1600
(1601)  DO ,1600 <- #1
        PLEASE WRITE IN ,1600
        DO .1701 <- .1600
        DO .1702 <- ,1600SUB#1
        DO (1700) NEXT
        PLEASE .1600 <- .1703~#255
        DO ,1601 <- #3
        DO ,1601SUB#1 <- .1600
        DO ,1601SUB#3 <- #256
        PLEASE .1601 <- ,1601SUB'"',1600SUB#1'~#256"$#1'
        DO RESUME #1

DO NOTE: (1610)  WRITES THE BYTE .1
(1610)  DO .1611 <- .1

PLEASE NOTE: THE SAME FROM .1611. THE BYTE IN FRONT OF IT IS IN .1610, BOTH WITH THEIR EIGHT
        PLACES TURNED ROUND
(1611)  DO .1611 <- '.1611~#15'$'.1611~#240'
        DO .1611 <- '.1611~#15'$'.1611~#240'
        DO .1611 <- '.1611~#15'$'.1611~#240'
        PLEASE .1701 <- '?.1610$#65535'~'#0$#65535'
        DO .1702 <- .1611
        DO (1700) NEXT
        DO .1610 <- .1611
        PLEASE ,1610 <- #1
        DO ,1610SUB#1 <- '"?.1703$#65535"~"#0$#65535"'~#255
        DO READ OUT ,1610
        DO RESUME #1

DO NOTE: THE SUM OF 16 BITS. .1703 IS .1701 + .1702, AND .1704 HAS THE CARRY OUT OF EACH
        PLACE
(1700)  DO .1704 <- '&.1701$.1702'~'#0$#65535'
        PLEASE .1705 <- '?.1701$.1702'~'#0$#65535'
        DO .1703 <- .1705

DO NOTE: PLACES THAT MAKE A CARRY ARE IN .1704, THOSE THAT PASS ONE ON IN .1705: OVER 1, 2,
        4 AND 8 PLACES
(1701)  DO .1704 <- 'V.1704$"'&.1705$"'.1704$#0'~'#32767$#1'"'~'#0$#65535'"'~'#0$#65535'
        PLEASE .1705 <- '&.1705$"'.1705$#0'~'#32767$#1'"'~'#0$#65535'
        DO .1704 <- 'V.1704$"'&.1705$"'"'.1704$#0'~'#32767$#1'"$#0'~'#32767$#1'"'~'#0$#65535'"'~'#0$
           #65535'
        DO .1705 <- '&.1705$"'"'.1705$#0'~'#32767$#1'"$#0'~'#32767$#1'"'~'#0$#65535'
        DO .1704 <- 'V.1704$"'&.1705$"'"'"'.1704$#0'~'#32767$#1'"$#0'~'#32767$#1'"$#0'~'#16383$
           #3'"'~'#0$#65535'"'~'#0$#65535'
        PLEASE .1705 <- '&.1705$"'"'"'.1705$#0'~'#32767$#1'"$#0'~'#32767$#1'"$#0'~'#16383$#3'"'~'#0$
           #65535'
        DO .1704 <- 'V.1704$"'&.1705$"'"'"'"'.1704$#0'~'#32767$#1'"$#0'~'#32767$#1'"$#0'~'#16383$
           #3'"$#0'~'#4095$#15'"'~'#0$#65535'"'~'#0$#65535'
        DO .1703 <- '?.1703$"'.1704$#0'~'#32767$#1'"'~'#0$#65535'
        DO RESUME #1

DO NOTE: (1001)  THE WAY OUT OF A TEST. .5 IS 1 TO GO ON, AND 2 TO GO BACK
(1001)  PLEASE RESUME .5

DO NOTE: (1020)  .1 <- .1 PLUS #1, MODULO 65536
(1020)  DO .1701 <- .1
        PLEASE .1702 <- #1
        DO (1700) NEXT
        DO .1 <- .1703
        DO RESUME #1
