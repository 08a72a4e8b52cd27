PLEASE NOTE: THE ROUTINE OF LEAK, MENDED. THE LOOP IS ENTERED BY A NEXT OF ITS OWN, AND ITS FIRST
        STATEMENT FORGETS THE NEXT THAT CAME TO IT. THE GATE FORGETS THE NEXT THAT CAME TO THE GATE
        DO .1 <- #1
        DO (10) NEXT
        PLEASE GIVE UP
(10)    DO (13) NEXT
(13)    PLEASE FORGET #1
        DO READ OUT .1
        DO (1020) NEXT
        DO .5 <- '?.1$#100'~'#0$#65535'
        PLEASE .5 <- '?"'.5~.5'~#1"$#2'~#3
        DO (11) NEXT
        DO RESUME #1
(11)    PLEASE (12) NEXT
        DO FORGET #1
        DO (13) NEXT
(12)    PLEASE RESUME .5

DO NOTE: BELOW IS WHAT THIS PROGRAM CALLS OF THE LIBRARY

DO NOTE: THE SUM OF 16 BITS. .1703 IS .1701 + .1702, AND .1704 HAS THE CARRY OUT OF EACH
        PLACE
(1700)  DO .1704 <- '&.1701$.1702'~'#0$#65535'
        PLEASE .1705 <- '?.1701$.1702'~'#0$#65535'
        DO .1703 <- .1705

DO NOTE: PLACES THAT MAKE A CARRY ARE IN .1704, THOSE THAT PASS ONE ON IN .1705: OVER 1, 2,
        4 AND 8 PLACES
(1701)  DO .1704 <- 'V.1704$"'&.1705$"'.1704$#0'~'#32767$#1'"'~'#0$#65535'"'~'#0$#65535'
        PLEASE .1705 <- '&.1705$"'.1705$#0'~'#32767$#1'"'~'#0$#65535'
        DO .1704 <- 'V.1704$"'&.1705$"'"'.1704$#0'~'#32767$#1'"$#0'~'#32767$#1'"'~'#0$#65535'"'~'#0$
           #65535'
        DO .1705 <- '&.1705$"'"'.1705$#0'~'#32767$#1'"$#0'~'#32767$#1'"'~'#0$#65535'
        DO .1704 <- 'V.1704$"'&.1705$"'"'"'.1704$#0'~'#32767$#1'"$#0'~'#32767$#1'"$#0'~'#16383$
           #3'"'~'#0$#65535'"'~'#0$#65535'
        PLEASE .1705 <- '&.1705$"'"'"'.1705$#0'~'#32767$#1'"$#0'~'#32767$#1'"$#0'~'#16383$#3'"'~'#0$
           #65535'
        DO .1704 <- 'V.1704$"'&.1705$"'"'"'"'.1704$#0'~'#32767$#1'"$#0'~'#32767$#1'"$#0'~'#16383$
           #3'"$#0'~'#4095$#15'"'~'#0$#65535'"'~'#0$#65535'
        DO .1703 <- '?.1703$"'.1704$#0'~'#32767$#1'"'~'#0$#65535'
        DO RESUME #1

DO NOTE: (1020)  .1 <- .1 PLUS #1, MODULO 65536
(1020)  DO .1701 <- .1
        PLEASE .1702 <- #1
        DO (1700) NEXT
        DO .1 <- .1703
        DO RESUME #1
