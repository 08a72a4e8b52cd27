PLEASE NOTE: TAKES THE HEIGHT OF A TOWER, AND PRINTS FOR EACH DISC FROM WHICH OF THREE PEGS
        TO WHICH IT GOES
        DO WRITE IN .10
        DO .11 <- #1
        DO .12 <- #3
        PLEASE (10) NEXT
        DO GIVE UP

DO NOTE: (10) MOVES .10 DISCS FROM .11 TO .12, AND COMES BACK AT ONCE FOR NONE. THE THIRD
        PEG IS .11 XOR .12
(10)    DO .5 <- '?"'.10~.10'~#1"$#2'~#3
        PLEASE (11) NEXT
        DO RESUME #1
(11)    DO (1001) NEXT
        DO STASH .10 + .11 + .12
        PLEASE .1 <- .10
        DO .2 <- #1
        DO (1010) NEXT
        DO .10 <- .3
        PLEASE .12 <- '?.11$.12'~'#0$#65535'
        DO (10) NEXT
        DO RETRIEVE .11 + .12
        DO READ OUT .11 + .12
        PLEASE STASH .11 + .12
        DO .11 <- '?.11$.12'~'#0$#65535'
        DO (10) NEXT
        DO RETRIEVE .10 + .11 + .12
        PLEASE RESUME #2

DO NOTE: BELOW IS WHAT THIS PROGRAM CALLS OF THE LIBRARY

DO NOTE: THE SUM OF 16 BITS. .1703 IS .1701 + .1702, AND .1704 HAS THE CARRY OUT OF EACH
        PLACE
(1700)  DO .1704 <- '&.1701$.1702'~'#0$#65535'
        PLEASE .1705 <- '?.1701$.1702'~'#0$#65535'
        DO .1703 <- .1705

DO NOTE: PLACES THAT MAKE A CARRY ARE IN .1704, THOSE THAT PASS ONE ON IN .1705: OVER 1, 2,
        4 AND 8 PLACES
(1701)  DO .1704 <- 'V.1704$"'&.1705$"'.1704$#0'~'#32767$#1'"'~'#0$#65535'"'~'#0$#65535'
        PLEASE .1705 <- '&.1705$"'.1705$#0'~'#32767$#1'"'~'#0$#65535'
        DO .1704 <- 'V.1704$"'&.1705$"'"'.1704$#0'~'#32767$#1'"$#0'~'#32767$#1'"'~'#0$#65535'"'~'#0$
           #65535'
        DO .1705 <- '&.1705$"'"'.1705$#0'~'#32767$#1'"$#0'~'#32767$#1'"'~'#0$#65535'
        DO .1704 <- 'V.1704$"'&.1705$"'"'"'.1704$#0'~'#32767$#1'"$#0'~'#32767$#1'"$#0'~'#16383$
           #3'"'~'#0$#65535'"'~'#0$#65535'
        PLEASE .1705 <- '&.1705$"'"'"'.1705$#0'~'#32767$#1'"$#0'~'#32767$#1'"$#0'~'#16383$#3'"'~'#0$
           #65535'
        DO .1704 <- 'V.1704$"'&.1705$"'"'"'"'.1704$#0'~'#32767$#1'"$#0'~'#32767$#1'"$#0'~'#16383$
           #3'"$#0'~'#4095$#15'"'~'#0$#65535'"'~'#0$#65535'
        DO .1703 <- '?.1703$"'.1704$#0'~'#32767$#1'"'~'#0$#65535'
        DO RESUME #1

DO NOTE: (1001)  THE WAY OUT OF A TEST. .5 IS 1 TO GO ON, AND 2 TO GO BACK
(1001)  PLEASE RESUME .5

PLEASE NOTE: (1010)  .3 <- .1 MINUS .2, MODULO 65536
(1010)  DO .1701 <- '?.1$#65535'~'#0$#65535'
        DO .1702 <- .2
        DO (1700) NEXT
        PLEASE .3 <- '?.1703$#65535'~'#0$#65535'
        DO RESUME #1
