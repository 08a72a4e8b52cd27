PLEASE NOTE: COPIES THE INPUT, BUT NOT WHAT IS IN BRACKETS. WHICH OF THE TWO IT IS, NO
        VARIABLE SAYS: (40) IS ABSTAINED FROM OR NOT
(10)    DO FORGET #1
        DO (1600) NEXT
        DO .5 <- '?".1~#256"$#1'~#3
        PLEASE (11) NEXT
        DO GIVE UP
(11)    DO (1001) NEXT
        DO FORGET #1

PLEASE NOTE: 40 OPENS A BRACKET
        DO .2 <- '?.1$#40'~'#0$#65535'
        DO .5 <- '?"'.2~.2'~#1"$#1'~#3
        DO (20) NEXT
(40)    PLEASE (1610) NEXT

DO NOTE: 41 CLOSES IT
        DO .2 <- '?.1$#41'~'#0$#65535'
        DO .5 <- '?"'.2~.2'~#1"$#1'~#3
        PLEASE (30) NEXT
        DO (10) NEXT
(20)    DO (1001) NEXT
        DO ABSTAIN FROM (40)
        PLEASE RESUME #1
(30)    DO (1001) NEXT
        DO REINSTATE (40)
        DO RESUME #1

DO NOTE: BELOW IS WHAT THIS PROGRAM CALLS OF THE LIBRARY

DO NOTE: (1600)  .1 <- THE NEXT BYTE OF THE INPUT, OR #256 AT ITS END
(1600)  DO (1601) NEXT
        PLEASE .1 <- .1601
        DO RESUME #1

DO NOTE: THE SAME INTO .1601. THE BYTE IN FRONT OF IT IS IN .1600
(1601)  DO ,1600 <- #1
        PLEASE WRITE IN ,1600
        DO .1701 <- .1600
        DO .1702 <- ,1600SUB#1
        DO (1700) NEXT
        PLEASE .1600 <- .1703~#255
        DO ,1601 <- #3
        DO ,1601SUB#1 <- .1600
        DO ,1601SUB#3 <- #256
        PLEASE .1601 <- ,1601SUB'"',1600SUB#1'~#256"$#1'
        DO RESUME #1

DO NOTE: (1610)  WRITES THE BYTE .1
(1610)  DO .1611 <- .1

PLEASE NOTE: THE SAME FROM .1611. THE BYTE IN FRONT OF IT IS IN .1610, BOTH WITH THEIR EIGHT
        PLACES TURNED ROUND
(1611)  DO .1611 <- '.1611~#15'$'.1611~#240'
        DO .1611 <- '.1611~#15'$'.1611~#240'
        DO .1611 <- '.1611~#15'$'.1611~#240'
        PLEASE .1701 <- '?.1610$#65535'~'#0$#65535'
        DO .1702 <- .1611
        DO (1700) NEXT
        DO .1610 <- .1611
        PLEASE ,1610 <- #1
        DO ,1610SUB#1 <- '"?.1703$#65535"~"#0$#65535"'~#255
        DO READ OUT ,1610
        DO RESUME #1

DO NOTE: THE SUM OF 16 BITS. .1703 IS .1701 + .1702, AND .1704 HAS THE CARRY OUT OF EACH
        PLACE
(1700)  DO .1704 <- '&.1701$.1702'~'#0$#65535'
        PLEASE .1705 <- '?.1701$.1702'~'#0$#65535'
        DO .1703 <- .1705

DO NOTE: PLACES THAT MAKE A CARRY ARE IN .1704, THOSE THAT PASS ONE ON IN .1705: OVER 1, 2,
        4 AND 8 PLACES
(1701)  DO .1704 <- 'V.1704$"'&.1705$"'.1704$#0'~'#32767$#1'"'~'#0$#65535'"'~'#0$#65535'
        PLEASE .1705 <- '&.1705$"'.1705$#0'~'#32767$#1'"'~'#0$#65535'
        DO .1704 <- 'V.1704$"'&.1705$"'"'.1704$#0'~'#32767$#1'"$#0'~'#32767$#1'"'~'#0$#65535'"'~'#0$
           #65535'
        DO .1705 <- '&.1705$"'"'.1705$#0'~'#32767$#1'"$#0'~'#32767$#1'"'~'#0$#65535'
        DO .1704 <- 'V.1704$"'&.1705$"'"'"'.1704$#0'~'#32767$#1'"$#0'~'#32767$#1'"$#0'~'#16383$
           #3'"'~'#0$#65535'"'~'#0$#65535'
        PLEASE .1705 <- '&.1705$"'"'"'.1705$#0'~'#32767$#1'"$#0'~'#32767$#1'"$#0'~'#16383$#3'"'~'#0$
           #65535'
        DO .1704 <- 'V.1704$"'&.1705$"'"'"'"'.1704$#0'~'#32767$#1'"$#0'~'#32767$#1'"$#0'~'#16383$
           #3'"$#0'~'#4095$#15'"'~'#0$#65535'"'~'#0$#65535'
        DO .1703 <- '?.1703$"'.1704$#0'~'#32767$#1'"'~'#0$#65535'
        DO RESUME #1

DO NOTE: (1001)  THE WAY OUT OF A TEST. .5 IS 1 TO GO ON, AND 2 TO GO BACK
(1001)  PLEASE RESUME .5
