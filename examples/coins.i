PLEASE NOTE: TWO COINS, SO FOUR RUNS. 1 IS HEADS, AND THE SUM IS THE NUMBER OF HEADS
        DO .1 <- #0
        DO %50 .1 <- #1
        DO .2 <- #0
        PLEASE %50 .2 <- #1
        DO (1000) NEXT
        DO READ OUT .3
        PLEASE GIVE UP

DO NOTE: BELOW IS WHAT THIS PROGRAM CALLS OF THE LIBRARY

DO NOTE: THE SUM OF 16 BITS. .1703 IS .1701 + .1702, AND .1704 HAS THE CARRY OUT OF EACH
        PLACE
(1700)  DO .1704 <- '&.1701$.1702'~'#0$#65535'
        PLEASE .1705 <- '?.1701$.1702'~'#0$#65535'
        DO .1703 <- .1705

DO NOTE: PLACES THAT MAKE A CARRY ARE IN .1704, THOSE THAT PASS ONE ON IN .1705: OVER 1, 2,
        4 AND 8 PLACES
(1701)  DO .1704 <- 'V.1704$"'&.1705$"'.1704$#0'~'#32767$#1'"'~'#0$#65535'"'~'#0$#65535'
        PLEASE .1705 <- '&.1705$"'.1705$#0'~'#32767$#1'"'~'#0$#65535'
        DO .1704 <- 'V.1704$"'&.1705$"'"'.1704$#0'~'#32767$#1'"$#0'~'#32767$#1'"'~'#0$#65535'"'~'#0$
           #65535'
        DO .1705 <- '&.1705$"'"'.1705$#0'~'#32767$#1'"$#0'~'#32767$#1'"'~'#0$#65535'
        DO .1704 <- 'V.1704$"'&.1705$"'"'"'.1704$#0'~'#32767$#1'"$#0'~'#32767$#1'"$#0'~'#16383$
           #3'"'~'#0$#65535'"'~'#0$#65535'
        PLEASE .1705 <- '&.1705$"'"'"'.1705$#0'~'#32767$#1'"$#0'~'#32767$#1'"$#0'~'#16383$#3'"'~'#0$
           #65535'
        DO .1704 <- 'V.1704$"'&.1705$"'"'"'"'.1704$#0'~'#32767$#1'"$#0'~'#32767$#1'"$#0'~'#16383$
           #3'"$#0'~'#4095$#15'"'~'#0$#65535'"'~'#0$#65535'
        DO .1703 <- '?.1703$"'.1704$#0'~'#32767$#1'"'~'#0$#65535'
        DO RESUME #1

PLEASE NOTE: THE WAY OUT OF ROUTINES THAT STOP. .1700 IS 2 IF ALL IS WELL
(1998)  DO RESUME .1700
(1999)  DO EXPECT NO ANSWER, FOR THE RESULT IS TOO LARGE

DO NOTE: (1000)  .3 <- .1 PLUS .2, AND STOP IF THAT IS TOO LARGE
(1000)  DO .1701 <- .1
        DO .1702 <- .2
        PLEASE (1700) NEXT
        DO .3 <- .1703
        DO .1700 <- '?".1704~#32768"$#2'~#3
        DO (1998) NEXT
        PLEASE (1999) NEXT
