PLEASE NOTE: EACH NUMBER IS THE SUM OF THE TWO IN FRONT OF IT, UP TO THE LAST THAT HAS
        SIXTEEN BITS
        DO .1 <- #0
        DO .2 <- #1
(10)    DO FORGET #1
        PLEASE READ OUT .2
        DO (1009) NEXT
        DO .1 <- .2
        DO .2 <- .3

PLEASE NOTE: .4 IS 1 UNTIL A CARRY IS LOST
        DO (11) NEXT
        DO GIVE UP
(11)    DO (12) NEXT
        PLEASE FORGET #1
        DO (10) NEXT
(12)    DO RESUME .4

DO NOTE: BELOW IS WHAT THIS PROGRAM CALLS OF THE LIBRARY

DO NOTE: THE SUM OF 16 BITS. .1703 IS .1701 + .1702, AND .1704 HAS THE CARRY OUT OF EACH
        PLACE
(1700)  DO .1704 <- '&.1701$.1702'~'#0$#65535'
        PLEASE .1705 <- '?.1701$.1702'~'#0$#65535'
        DO .1703 <- .1705

DO NOTE: PLACES THAT MAKE A CARRY ARE IN .1704, THOSE THAT PASS ONE ON IN .1705: OVER 1, 2,
        4 AND 8 PLACES
(1701)  DO .1704 <- 'V.1704$"'&.1705$"'.1704$#0'~'#32767$#1'"'~'#0$#65535'"'~'#0$#65535'
        PLEASE .1705 <- '&.1705$"'.1705$#0'~'#32767$#1'"'~'#0$#65535'
        DO .1704 <- 'V.1704$"'&.1705$"'"'.1704$#0'~'#32767$#1'"$#0'~'#32767$#1'"'~'#0$#65535'"'~'#0$
           #65535'
        DO .1705 <- '&.1705$"'"'.1705$#0'~'#32767$#1'"$#0'~'#32767$#1'"'~'#0$#65535'
        DO .1704 <- 'V.1704$"'&.1705$"'"'"'.1704$#0'~'#32767$#1'"$#0'~'#32767$#1'"$#0'~'#16383$
           #3'"'~'#0$#65535'"'~'#0$#65535'
        PLEASE .1705 <- '&.1705$"'"'"'.1705$#0'~'#32767$#1'"$#0'~'#32767$#1'"$#0'~'#16383$#3'"'~'#0$
           #65535'
        DO .1704 <- 'V.1704$"'&.1705$"'"'"'"'.1704$#0'~'#32767$#1'"$#0'~'#32767$#1'"$#0'~'#16383$
           #3'"$#0'~'#4095$#15'"'~'#0$#65535'"'~'#0$#65535'
        DO .1703 <- '?.1703$"'.1704$#0'~'#32767$#1'"'~'#0$#65535'
        DO RESUME #1

DO NOTE: (1009)  .3 <- .1 PLUS .2, AND .4 <- #1, OR #2 IF A CARRY IS LOST
(1009)  DO .1701 <- .1
        DO .1702 <- .2
        PLEASE (1700) NEXT
        DO .3 <- .1703
        DO .4 <- '?".1704~#32768"$#1'~#3
        DO RESUME #1
