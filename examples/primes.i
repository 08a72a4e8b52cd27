PLEASE NOTE: THE SIEVE OF ERATOSTHENES UP TO 100. ,1 HAS 1 AT EACH NUMBER THAT IS STRUCK OUT
        DO ,1 <- #100
        DO .10 <- #2
(10)    DO FORGET #1
        PLEASE .5 <- '?",1SUB.10"$#1'~#3
        DO (20) NEXT
        DO .1 <- .10
        DO (1020) NEXT
        PLEASE .10 <- .1
        DO .1 <- '?.10$#101'~'#0$#65535'
        DO .5 <- '?"'.1~.1'~#1"$#2'~#3
        DO (11) NEXT
        PLEASE GIVE UP
(11)    DO (1001) NEXT
        DO FORGET #1
        DO (10) NEXT

PLEASE NOTE: A PRIME. ITS MULTIPLES ARE STRUCK OUT. THIS LOOP IS ENTERED BY A NEXT, SINCE
        ITS HEAD FORGETS ONE
(20)    DO (1001) NEXT
        DO READ OUT .10
        DO .11 <- .10
        PLEASE (30) NEXT
(30)    DO FORGET #1
        DO ,1SUB.11 <- #1
        DO .1 <- .11
        PLEASE .2 <- .10
        DO (1000) NEXT
        DO .11 <- .3

DO NOTE: .4 IS 2 AND .5 IS 1 IF .11 IS BELOW 101
        PLEASE .1 <- '?.11$#65535'~'#0$#65535'
        DO .2 <- #101
        DO (1009) NEXT
        DO .5 <- '?".4~#2"$#2'~#3
        PLEASE (31) NEXT
        DO RESUME #1
(31)    DO (1001) NEXT
        DO FORGET #1
        PLEASE (30) NEXT

DO NOTE: BELOW IS WHAT THIS PROGRAM CALLS OF THE LIBRARY

DO NOTE: THE SUM OF 16 BITS. .1703 IS .1701 + .1702, AND .1704 HAS THE CARRY OUT OF EACH
        PLACE
(1700)  DO .1704 <- '&.1701$.1702'~'#0$#65535'
        PLEASE .1705 <- '?.1701$.1702'~'#0$#65535'
        DO .1703 <- .1705

DO NOTE: PLACES THAT MAKE A CARRY ARE IN .1704, THOSE THAT PASS ONE ON IN .1705: OVER 1, 2,
        4 AND 8 PLACES
(1701)  DO .1704 <- 'V.1704$"'&.1705$"'.1704$#0'~'#32767$#1'"'~'#0$#65535'"'~'#0$#65535'
        PLEASE .1705 <- '&.1705$"'.1705$#0'~'#32767$#1'"'~'#0$#65535'
        DO .1704 <- 'V.1704$"'&.1705$"'"'.1704$#0'~'#32767$#1'"$#0'~'#32767$#1'"'~'#0$#65535'"'~'#0$
           #65535'
        DO .1705 <- '&.1705$"'"'.1705$#0'~'#32767$#1'"$#0'~'#32767$#1'"'~'#0$#65535'
        DO .1704 <- 'V.1704$"'&.1705$"'"'"'.1704$#0'~'#32767$#1'"$#0'~'#32767$#1'"$#0'~'#16383$
           #3'"'~'#0$#65535'"'~'#0$#65535'
        PLEASE .1705 <- '&.1705$"'"'"'.1705$#0'~'#32767$#1'"$#0'~'#32767$#1'"$#0'~'#16383$#3'"'~'#0$
           #65535'
        DO .1704 <- 'V.1704$"'&.1705$"'"'"'"'.1704$#0'~'#32767$#1'"$#0'~'#32767$#1'"$#0'~'#16383$
           #3'"$#0'~'#4095$#15'"'~'#0$#65535'"'~'#0$#65535'
        DO .1703 <- '?.1703$"'.1704$#0'~'#32767$#1'"'~'#0$#65535'
        DO RESUME #1

PLEASE NOTE: THE WAY OUT OF ROUTINES THAT STOP. .1700 IS 2 IF ALL IS WELL
(1998)  DO RESUME .1700
(1999)  DO EXPECT NO ANSWER, FOR THE RESULT IS TOO LARGE

DO NOTE: (1001)  THE WAY OUT OF A TEST. .5 IS 1 TO GO ON, AND 2 TO GO BACK
(1001)  PLEASE RESUME .5

DO NOTE: (1000)  .3 <- .1 PLUS .2, AND STOP IF THAT IS TOO LARGE
(1000)  DO .1701 <- .1
        DO .1702 <- .2
        PLEASE (1700) NEXT
        DO .3 <- .1703
        DO .1700 <- '?".1704~#32768"$#2'~#3
        DO (1998) NEXT
        PLEASE (1999) NEXT

DO NOTE: (1009)  .3 <- .1 PLUS .2, AND .4 <- #1, OR #2 IF A CARRY IS LOST
(1009)  DO .1701 <- .1
        DO .1702 <- .2
        PLEASE (1700) NEXT
        DO .3 <- .1703
        DO .4 <- '?".1704~#32768"$#1'~#3
        DO RESUME #1

DO NOTE: (1020)  .1 <- .1 PLUS #1, MODULO 65536
(1020)  DO .1701 <- .1
        PLEASE .1702 <- #1
        DO (1700) NEXT
        DO .1 <- .1703
        DO RESUME #1
