PLEASE NOTE: THINKS OF A NUMBER FROM 0 TO 15 BY FOUR COINS, AND LETS ITS USER GUESS IT
        DO ,9 <- #47
        DO ,9SUB#1 <- #110  DO ,9SUB#2 <- #142  PLEASE ,9SUB#3 <- #214  DO ,9SUB#4 <- #24
        DO ,9SUB#5 <- #128  DO ,9SUB#6 <- #32  PLEASE ,9SUB#7 <- #160  DO ,9SUB#8 <- #210
        DO ,9SUB#9 <- #14  DO ,9SUB#10 <- #144  PLEASE ,9SUB#11 <- #98  DO ,9SUB#12 <- #126
        DO ,9SUB#13 <- #130  DO ,9SUB#14 <- #142  PLEASE ,9SUB#15 <- #200  DO ,9SUB#16 <- #248
        DO ,9SUB#17 <- #112  DO ,9SUB#18 <- #160  PLEASE ,9SUB#19 <- #88  DO ,9SUB#20 <- #74
        DO ,9SUB#21 <- #158  DO ,9SUB#22 <- #24  PLEASE ,9SUB#23 <- #88  DO ,9SUB#24 <- #64
        DO ,9SUB#25 <- #178  DO ,9SUB#26 <- #248  PLEASE ,9SUB#27 <- #8  DO ,9SUB#28 <- #214
        DO ,9SUB#29 <- #56  DO ,9SUB#30 <- #242  PLEASE ,9SUB#31 <- #120  DO ,9SUB#32 <- #224
        DO ,9SUB#33 <- #56  DO ,9SUB#34 <- #112  PLEASE ,9SUB#35 <- #26  DO ,9SUB#36 <- #212
        DO ,9SUB#37 <- #128  DO ,9SUB#38 <- #208  PLEASE ,9SUB#39 <- #176  DO ,9SUB#40 <- #18
        DO ,9SUB#41 <- #110  DO ,9SUB#42 <- #200  PLEASE ,9SUB#43 <- #202  DO ,9SUB#44 <- #110
        DO ,9SUB#45 <- #104  DO ,9SUB#46 <- #50  PLEASE ,9SUB#47 <- #172
        DO ,8 <- #6
        DO ,8SUB#1 <- #30  DO ,8SUB#2 <- #140  PLEASE ,8SUB#3 <- #216  DO ,8SUB#4 <- #0
        DO ,8SUB#5 <- #90  DO ,8SUB#6 <- #36
        PLEASE ,7 <- #6
        DO ,7SUB#1 <- #158  DO ,7SUB#2 <- #188  DO ,7SUB#3 <- #168  PLEASE ,7SUB#4 <- #168
        DO ,7SUB#5 <- #50  DO ,7SUB#6 <- #36
        DO ,6 <- #5
        PLEASE ,6SUB#1 <- #182  DO ,6SUB#2 <- #244  DO ,6SUB#3 <- #216  DO ,6SUB#4 <- #74
        PLEASE ,6SUB#5 <- #52
        DO ,5 <- #14
        DO ,5SUB#1 <- #206  DO ,5SUB#2 <- #12  PLEASE ,5SUB#3 <- #128  DO ,5SUB#4 <- #200
        DO ,5SUB#5 <- #24  DO ,5SUB#6 <- #112  PLEASE ,5SUB#7 <- #88  DO ,5SUB#8 <- #74
        DO ,5SUB#9 <- #214  DO ,5SUB#10 <- #152  PLEASE ,5SUB#11 <- #224  DO ,5SUB#12 <- #16
        DO ,5SUB#13 <- #50  DO ,5SUB#14 <- #36
        PLEASE READ OUT ,9
        DO %50 .20 <- #8
        DO %50 .20 <- 'V.20$#4'~'#0$#65535'
        DO %50 .20 <- 'V.20$#2'~'#0$#65535'
        PLEASE %50 .20 <- 'V.20$#1'~'#0$#65535'
(10)    DO FORGET #1
        DO (1640) NEXT

DO NOTE: :4 IS 2 IF THE INPUT IS AT ITS END
        PLEASE .5 <- :4
        DO (11) NEXT
        DO READ OUT ,5
        DO GIVE UP
(11)    PLEASE (1001) NEXT
        DO FORGET #1
        DO .21 <- :1

DO NOTE: .4 IS 2 IF THE GUESS IS ABOVE, AND THEN IF IT IS BELOW
        PLEASE .1 <- '?.20$#65535'~'#0$#65535'
        DO .2 <- .21
        DO (1009) NEXT
        DO .5 <- '?".4~#2"$#2'~#3
        PLEASE (20) NEXT
        DO .1 <- '?.21$#65535'~'#0$#65535'
        DO .2 <- .20
        DO (1009) NEXT
        PLEASE .5 <- '?".4~#2"$#2'~#3
        DO (30) NEXT
        DO READ OUT ,6
        DO GIVE UP
(20)    PLEASE (1001) NEXT
        DO READ OUT ,8
        DO FORGET #1
        DO (10) NEXT
(30)    PLEASE (1001) NEXT
        DO READ OUT ,7
        DO FORGET #1
        DO (10) NEXT

DO NOTE: BELOW IS WHAT THIS PROGRAM CALLS OF THE LIBRARY

DO NOTE: THE SAME INTO .1601. THE BYTE IN FRONT OF IT IS IN .1600
(1601)  DO ,1600 <- #1
        PLEASE WRITE IN ,1600
        DO .1701 <- .1600
        DO .1702 <- ,1600SUB#1
        DO (1700) NEXT
        PLEASE .1600 <- .1703~#255
        DO ,1601 <- #3
        DO ,1601SUB#1 <- .1600
        DO ,1601SUB#3 <- #256
        PLEASE .1601 <- ,1601SUB'"',1600SUB#1'~#256"$#1'
        DO RESUME #1

DO NOTE: (1640)  :1 <- THE NEXT NUMBER OF THE INPUT, AND :4 <- #1, OR #2 IF THERE IS NONE.
        BYTES IN FRONT OF ITS FIRST DIGIT ARE SKIPPED, AND THE BYTE BEHIND ITS LAST IS TAKEN. STOP
        IF IT IS TOO LARGE
(1640)  DO :1640 <- #0
        DO .1640 <- #0
        PLEASE .1641 <- #2
        DO (1641) NEXT
(1641)  DO FORGET #1
        DO (1601) NEXT

PLEASE NOTE: .1642 IS BELOW 10 FOR A DIGIT, AND ELSE .1643 IS 1
        DO .1642 <- '?.1601$#48'~'#0$#65535'
        DO .1643 <- 'V"'".1642~#65520"~".1642~#65520"'~#1"$"'&".1642~#8"$"'".1642~#6"~".1642~#6"'~
           #1"'~#1"'~#1
        DO .1700 <- '?.1643$#1'~#3
        PLEASE (1642) NEXT
        DO .1700 <- '?"'&.1643$"'V".1641~#1"$".1601~#256"'~#1"'~#1"$#2'~#3
        DO (1643) NEXT
        DO (1641) NEXT

PLEASE NOTE: A DIGIT. :1640 BECOMES TWICE AND EIGHT TIMES ITSELF PLUS THE DIGIT. .1640 IS 1
        IF A CARRY IS LOST
(1642)  DO (1998) NEXT
        DO .1641 <- #1
        DO .1640 <- 'V.1640$"'":1640~'#49152$#32768'"~":1640~'#49152$#32768'"'~#1"'~#1
        PLEASE :1701 <- ':1640~"#0$#65535"'$'"':1640~"#65535$#0"'$#0"~"#32767$#1"'
        DO :1702 <- '"':1701~"#0$#65535"'$'"':1701~"#65535$#0"'$#0"~"#32767$#1"'"~"#0$#65535"'$
           '"'"':1701~"#0$#65535"'$'"':1701~"#65535$#0"'$#0"~"#32767$#1"'"~"#65535$#0"'$#0"~"#32767$
           #1"'
        DO (1710) NEXT
        DO .1640 <- 'V.1640$".1704~#32768"'~#1
        PLEASE :1701 <- :1703
        DO :1702 <- .1642
        DO (1710) NEXT
        DO .1640 <- 'V.1640$".1704~#32768"'~#1
        PLEASE :1640 <- :1703
        DO RESUME #1

DO NOTE: THE END OF A NUMBER, OR OF THE INPUT
(1643)  DO (1998) NEXT
        PLEASE FORGET #1
        DO :1 <- :1640
        DO :4 <- .1641
        DO .1700 <- '?.1640$#2'~#3
        PLEASE (1998) NEXT
        DO (1999) NEXT

DO NOTE: THE SUM OF 16 BITS. .1703 IS .1701 + .1702, AND .1704 HAS THE CARRY OUT OF EACH
        PLACE
(1700)  DO .1704 <- '&.1701$.1702'~'#0$#65535'
        PLEASE .1705 <- '?.1701$.1702'~'#0$#65535'
        DO .1703 <- .1705

DO NOTE: PLACES THAT MAKE A CARRY ARE IN .1704, THOSE THAT PASS ONE ON IN .1705: OVER 1, 2,
        4 AND 8 PLACES
(1701)  DO .1704 <- 'V.1704$"'&.1705$"'.1704$#0'~'#32767$#1'"'~'#0$#65535'"'~'#0$#65535'
        PLEASE .1705 <- '&.1705$"'.1705$#0'~'#32767$#1'"'~'#0$#65535'
        DO .1704 <- 'V.1704$"'&.1705$"'"'.1704$#0'~'#32767$#1'"$#0'~'#32767$#1'"'~'#0$#65535'"'~'#0$
           #65535'
        DO .1705 <- '&.1705$"'"'.1705$#0'~'#32767$#1'"$#0'~'#32767$#1'"'~'#0$#65535'
        DO .1704 <- 'V.1704$"'&.1705$"'"'"'.1704$#0'~'#32767$#1'"$#0'~'#32767$#1'"$#0'~'#16383$
           #3'"'~'#0$#65535'"'~'#0$#65535'
        PLEASE .1705 <- '&.1705$"'"'"'.1705$#0'~'#32767$#1'"$#0'~'#32767$#1'"$#0'~'#16383$#3'"'~'#0$
           #65535'
        DO .1704 <- 'V.1704$"'&.1705$"'"'"'"'.1704$#0'~'#32767$#1'"$#0'~'#32767$#1'"$#0'~'#16383$
           #3'"$#0'~'#4095$#15'"'~'#0$#65535'"'~'#0$#65535'
        DO .1703 <- '?.1703$"'.1704$#0'~'#32767$#1'"'~'#0$#65535'
        DO RESUME #1

PLEASE NOTE: THE SUM OF 32 BITS. :1703 IS :1701 + :1702, AND THE CARRY OUT OF IT TOPS .1704.
        EACH PAIR OF PLACES MAKES A CARRY OR PASSES ONE ON, AND THERE ARE SIXTEEN PAIRS
(1710)  DO .1711 <- '&":1701~'#0$#65535'"$":1702~'#0$#65535'"'~'#0$#65535'
        DO .1712 <- '?":1701~'#0$#65535'"$":1702~'#0$#65535'"'~'#0$#65535'
        DO .1713 <- '&":1701~'#65535$#0'"$":1702~'#65535$#0'"'~'#0$#65535'
        PLEASE .1714 <- '?":1701~'#65535$#0'"$":1702~'#65535$#0'"'~'#0$#65535'
        DO .1704 <- 'V.1713$"'&.1714$.1711'~'#0$#65535'"'~'#0$#65535'
        DO .1705 <- '&.1714$.1712'~'#0$#65535'
        DO (1701) NEXT
        PLEASE .1715 <- '.1704$#0'~'#32767$#1'
        DO :1703 <- '"?.1714$'"V.1711$'"&.1712$.1715"~"#0$#65535"'"~"#0$#65535"'"~"#0$#65535"'$
           '"?.1712$.1715"~"#0$#65535"'
        DO RESUME #1

PLEASE NOTE: THE WAY OUT OF ROUTINES THAT STOP. .1700 IS 2 IF ALL IS WELL
(1998)  DO RESUME .1700
(1999)  DO EXPECT NO ANSWER, FOR THE RESULT IS TOO LARGE

DO NOTE: (1001)  THE WAY OUT OF A TEST. .5 IS 1 TO GO ON, AND 2 TO GO BACK
(1001)  PLEASE RESUME .5

DO NOTE: (1009)  .3 <- .1 PLUS .2, AND .4 <- #1, OR #2 IF A CARRY IS LOST
(1009)  DO .1701 <- .1
        DO .1702 <- .2
        PLEASE (1700) NEXT
        DO .3 <- .1703
        DO .4 <- '?".1704~#32768"$#1'~#3
        DO RESUME #1
