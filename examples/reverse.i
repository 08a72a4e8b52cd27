PLEASE NOTE: PRINTS THE LINE THAT IT TAKES FROM BEHIND. EACH BYTE IS STASHED, AND RETRIEVED
        AFTER THE LAST ONE. 10 ENDS A LINE
        DO .1 <- #10
(10)    DO FORGET #1
        DO STASH .1
        PLEASE (1600) NEXT
        DO .2 <- '?.1$#10'~'#0$#65535'
        DO .5 <- '?"'.2~.2'~#1"$#2'~#3
        DO (11) NEXT
(20)    PLEASE FORGET #1
        DO RETRIEVE .1
        DO .2 <- '?.1$#10'~'#0$#65535'
        DO .5 <- '?"'.2~.2'~#1"$#2'~#3
        PLEASE (21) NEXT
        DO (1630) NEXT
        DO GIVE UP
(11)    DO (1001) NEXT
        PLEASE FORGET #1
        DO (10) NEXT
(21)    DO (1001) NEXT
        DO FORGET #1
        PLEASE (1610) NEXT
        DO (20) NEXT

DO NOTE: BELOW IS WHAT THIS PROGRAM CALLS OF THE LIBRARY

DO NOTE: (1600)  .1 <- THE NEXT BYTE OF THE INPUT, OR #256 AT ITS END
(1600)  DO (1601) NEXT
        PLEASE .1 <- .1601
        DO RESUME #1

DO NOTE: THE SAME INTO .1601. THE BYTE IN FRONT OF IT IS IN .1600
(1601)  DO ,1600 <- #1
        PLEASE WRITE IN ,1600
        DO .1701 <- .1600
        DO .1702 <- ,1600SUB#1
        DO (1700) NEXT
        PLEASE .1600 <- .1703~#255
        DO ,1601 <- #3
        DO ,1601SUB#1 <- .1600
        DO ,1601SUB#3 <- #256
        PLEASE .1601 <- ,1601SUB'"',1600SUB#1'~#256"$#1'
        DO RESUME #1

DO NOTE: (1610)  WRITES THE BYTE .1
(1610)  DO .1611 <- .1

PLEASE NOTE: THE SAME FROM .1611. THE BYTE IN FRONT OF IT IS IN .1610, BOTH WITH THEIR EIGHT
        PLACES TURNED ROUND
(1611)  DO .1611 <- '.1611~#15'$'.1611~#240'
        DO .1611 <- '.1611~#15'$'.1611~#240'
        DO .1611 <- '.1611~#15'$'.1611~#240'
        PLEASE .1701 <- '?.1610$#65535'~'#0$#65535'
        DO .1702 <- .1611
        DO (1700) NEXT
        DO .1610 <- .1611
        PLEASE ,1610 <- #1
        DO ,1610SUB#1 <- '"?.1703$#65535"~"#0$#65535"'~#255
        DO READ OUT ,1610
        DO RESUME #1

PLEASE NOTE: (1630)  WRITES THE END OF A LINE
(1630)  DO .1611 <- #10
        DO (1611) NEXT
        DO RESUME #1

DO NOTE: THE SUM OF 16 BITS. .1703 IS .1701 + .1702, AND .1704 HAS THE CARRY OUT OF EACH
        PLACE
(1700)  DO .1704 <- '&.1701$.1702'~'#0$#65535'
        PLEASE .1705 <- '?.1701$.1702'~'#0$#65535'
        DO .1703 <- .1705

DO NOTE: PLACES THAT MAKE A CARRY ARE IN .1704, THOSE THAT PASS ONE ON IN .1705: OVER 1, 2,
        4 AND 8 PLACES
(1701)  DO .1704 <- 'V.1704$"'&.1705$"'.1704$#0'~'#32767$#1'"'~'#0$#65535'"'~'#0$#65535'
        PLEASE .1705 <- '&.1705$"'.1705$#0'~'#32767$#1'"'~'#0$#65535'
        DO .1704 <- 'V.1704$"'&.1705$"'"'.1704$#0'~'#32767$#1'"$#0'~'#32767$#1'"'~'#0$#65535'"'~'#0$
           #65535'
        DO .1705 <- '&.1705$"'"'.1705$#0'~'#32767$#1'"$#0'~'#32767$#1'"'~'#0$#65535'
        DO .1704 <- 'V.1704$"'&.1705$"'"'"'.1704$#0'~'#32767$#1'"$#0'~'#32767$#1'"$#0'~'#16383$
           #3'"'~'#0$#65535'"'~'#0$#65535'
        PLEASE .1705 <- '&.1705$"'"'"'.1705$#0'~'#32767$#1'"$#0'~'#32767$#1'"$#0'~'#16383$#3'"'~'#0$
           #65535'
        DO .1704 <- 'V.1704$"'&.1705$"'"'"'"'.1704$#0'~'#32767$#1'"$#0'~'#32767$#1'"$#0'~'#16383$
           #3'"$#0'~'#4095$#15'"'~'#0$#65535'"'~'#0$#65535'
        DO .1703 <- '?.1703$"'.1704$#0'~'#32767$#1'"'~'#0$#65535'
        DO RESUME #1

DO NOTE: (1001)  THE WAY OUT OF A TEST. .5 IS 1 TO GO ON, AND 2 TO GO BACK
(1001)  PLEASE RESUME .5
