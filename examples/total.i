PLEASE NOTE: ADDS THE DECIMAL NUMBERS OF ITS INPUT, AND PRINTS THE TOTAL. THE LOOP BEGINS AT LABEL 10
        DO :5 <- #0
        DO (10) NEXT
(10)    DO FORGET #1
        PLEASE (1640) NEXT

DO NOTE: :4 IS 1 IF THERE IS A NUMBER IN :1, AND 2 AT THE END OF THE INPUT
        DO .5 <- :4~#3
        DO (11) NEXT

PLEASE NOTE: A TEXT, AND THEN THE TOTAL
        DO ,1 <- #7
        DO ,1SUB#1 <- #214
        DO ,1SUB#2 <- #52
        PLEASE ,1SUB#3 <- #200
        DO ,1SUB#4 <- #168
        DO ,1SUB#5 <- #80
        DO ,1SUB#6 <- #218
        PLEASE ,1SUB#7 <- #88
        DO READ OUT ,1
        DO .1610 <- #4
        DO :1 <- :5
        PLEASE (1620) NEXT
        DO (1630) NEXT
        DO GIVE UP

PLEASE NOTE: ADDS A NUMBER, AND GOES BACK TO THE HEAD OF THE LOOP
(11)    DO (12) NEXT
        DO FORGET #1
        DO :2 <- :5
        PLEASE (1500) NEXT
        DO :5 <- :3
        DO (10) NEXT
(12)    DO RESUME .5

DO NOTE: BELOW IS WHAT THIS PROGRAM CALLS OF THE LIBRARY

DO NOTE: THE SAME INTO .1601. THE BYTE IN FRONT OF IT IS IN .1600
(1601)  DO ,1600 <- #1
        PLEASE WRITE IN ,1600
        DO .1701 <- .1600
        DO .1702 <- ,1600SUB#1
        DO (1700) NEXT
        PLEASE .1600 <- .1703~#255
        DO ,1601 <- #3
        DO ,1601SUB#1 <- .1600
        DO ,1601SUB#3 <- #256
        PLEASE .1601 <- ,1601SUB'"',1600SUB#1'~#256"$#1'
        DO RESUME #1

PLEASE NOTE: THE SAME FROM .1611. THE BYTE IN FRONT OF IT IS IN .1610, BOTH WITH THEIR EIGHT
        PLACES TURNED ROUND
(1611)  DO .1611 <- '.1611~#15'$'.1611~#240'
        DO .1611 <- '.1611~#15'$'.1611~#240'
        DO .1611 <- '.1611~#15'$'.1611~#240'
        PLEASE .1701 <- '?.1610$#65535'~'#0$#65535'
        DO .1702 <- .1611
        DO (1700) NEXT
        DO .1610 <- .1611
        PLEASE ,1610 <- #1
        DO ,1610SUB#1 <- '"?.1703$#65535"~"#0$#65535"'~#255
        DO READ OUT ,1610
        DO RESUME #1

PLEASE NOTE: (1630)  WRITES THE END OF A LINE
(1630)  DO .1611 <- #10
        DO (1611) NEXT
        DO RESUME #1

PLEASE NOTE: (1620)  WRITES :1 WITH THE DIGITS 0 TO 9. TEN DIGITS ARE SIDE BY SIDE, THEIR
        ONES IN .1621, TWOS IN .1622, FOURS IN .1624 AND EIGHTS IN .1628. 32 TIMES THE WHOLE BECOMES
        TWICE AS MUCH PLUS THE NEXT BIT OF :1
(1620)  DO :1620 <- :1
        DO .1621 <- #0
        DO .1622 <- #0
        PLEASE .1624 <- #0
        DO .1628 <- #0
        DO (1621) NEXT

DO NOTE: .1629 HAS 1 AT EACH DIGIT THAT ISN'T 0, AND AT THE LAST. .1630 BECOMES 1 AT THE
        FIRST OF THEM, AND DIGITS ARE WRITTEN FROM THERE ON. TWO TIMES FIVE DIGITS ARE LOOKED AT
        PLEASE .1629 <- 'V"'V"'V.1621$.1622'~'#0$#65535'"$"'V.1624$.1628'~'#0$#65535'"'~'#0$
           #65535'"$#1'~'#0$#65535'
        DO .1630 <- #0
(1627)  DO (1628) NEXT
(1628)  DO (1629) NEXT
        PLEASE (1629) NEXT
        DO (1629) NEXT
        DO (1629) NEXT
(1629)  DO .1625 <- '".1628~#512"$".1622~#512"'$'".1624~#512"$".1621~#512"'
        PLEASE .1630 <- 'V.1630$".1629~#512"'~#1
        DO .1621 <- '.1621$#0'~'#32767$#1'
        DO .1622 <- '.1622$#0'~'#32767$#1'
        DO .1624 <- '.1624$#0'~'#32767$#1'
        PLEASE .1628 <- '.1628$#0'~'#32767$#1'
        DO .1629 <- '.1629$#0'~'#32767$#1'
        DO .1700 <- '?.1630$#2'~#3
        DO (1631) NEXT
        PLEASE RESUME #1
(1631)  DO (1998) NEXT
        DO .1611 <- 'V.1625$#48'~'#0$#65535'
        DO (1611) NEXT
        PLEASE RESUME #1

DO NOTE: TWICE AS MUCH: DIGITS FROM 5 ON GIVE 5 AWAY, ALL MOVE UP A PLANE, AND EACH 5 IS 1
        FOR THE NEXT DIGIT
(1621)  DO (1622) NEXT
(1622)  DO (1623) NEXT
(1623)  PLEASE (1624) NEXT
(1624)  DO (1625) NEXT
(1625)  DO (1626) NEXT
(1626)  DO .1625 <- 'V.1628$"'&.1624$"'V.1622$.1621'~'#0$#65535'"'~'#0$#65535'"'~'#0$#65535'
        PLEASE .1621 <- '?.1621$.1625'~'#0$#65535'
        DO .1626 <- '&.1625$.1621'~'#0$#65535'
        DO .1622 <- '?.1622$.1626'~'#0$#65535'
        DO .1628 <- '?"'?.1624$.1625'~'#0$#65535'"$"'&.1626$.1622'~'#0$#65535'"'~'#0$#65535'
        PLEASE .1624 <- .1622
        DO .1622 <- .1621
        DO .1621 <- '.1625$":1620~'#32768$#0'"'~'#32767$#1'
        DO :1620 <- ':1620~"#0$#65535"'$'"':1620~"#65535$#0"'$#0"~"#32767$#1"'
        PLEASE RESUME #1

DO NOTE: (1640)  :1 <- THE NEXT NUMBER OF THE INPUT, AND :4 <- #1, OR #2 IF THERE IS NONE.
        BYTES IN FRONT OF ITS FIRST DIGIT ARE SKIPPED, AND THE BYTE BEHIND ITS LAST IS TAKEN. STOP
        IF IT IS TOO LARGE
(1640)  DO :1640 <- #0
        DO .1640 <- #0
        PLEASE .1641 <- #2
        DO (1641) NEXT
(1641)  DO FORGET #1
        DO (1601) NEXT

PLEASE NOTE: .1642 IS BELOW 10 FOR A DIGIT, AND ELSE .1643 IS 1
        DO .1642 <- '?.1601$#48'~'#0$#65535'
        DO .1643 <- 'V"'".1642~#65520"~".1642~#65520"'~#1"$"'&".1642~#8"$"'".1642~#6"~".1642~#6"'~
           #1"'~#1"'~#1
        DO .1700 <- '?.1643$#1'~#3
        PLEASE (1642) NEXT
        DO .1700 <- '?"'&.1643$"'V".1641~#1"$".1601~#256"'~#1"'~#1"$#2'~#3
        DO (1643) NEXT
        DO (1641) NEXT

PLEASE NOTE: A DIGIT. :1640 BECOMES TWICE AND EIGHT TIMES ITSELF PLUS THE DIGIT. .1640 IS 1
        IF A CARRY IS LOST
(1642)  DO (1998) NEXT
        DO .1641 <- #1
        DO .1640 <- 'V.1640$"'":1640~'#49152$#32768'"~":1640~'#49152$#32768'"'~#1"'~#1
        PLEASE :1701 <- ':1640~"#0$#65535"'$'"':1640~"#65535$#0"'$#0"~"#32767$#1"'
        DO :1702 <- '"':1701~"#0$#65535"'$'"':1701~"#65535$#0"'$#0"~"#32767$#1"'"~"#0$#65535"'$
           '"'"':1701~"#0$#65535"'$'"':1701~"#65535$#0"'$#0"~"#32767$#1"'"~"#65535$#0"'$#0"~"#32767$
           #1"'
        DO (1710) NEXT
        DO .1640 <- 'V.1640$".1704~#32768"'~#1
        PLEASE :1701 <- :1703
        DO :1702 <- .1642
        DO (1710) NEXT
        DO .1640 <- 'V.1640$".1704~#32768"'~#1
        PLEASE :1640 <- :1703
        DO RESUME #1

DO NOTE: THE END OF A NUMBER, OR OF THE INPUT
(1643)  DO (1998) NEXT
        PLEASE FORGET #1
        DO :1 <- :1640
        DO :4 <- .1641
        DO .1700 <- '?.1640$#2'~#3
        PLEASE (1998) NEXT
        DO (1999) NEXT

DO NOTE: THE SUM OF 16 BITS. .1703 IS .1701 + .1702, AND .1704 HAS THE CARRY OUT OF EACH
        PLACE
(1700)  DO .1704 <- '&.1701$.1702'~'#0$#65535'
        PLEASE .1705 <- '?.1701$.1702'~'#0$#65535'
        DO .1703 <- .1705

DO NOTE: PLACES THAT MAKE A CARRY ARE IN .1704, THOSE THAT PASS ONE ON IN .1705: OVER 1, 2,
        4 AND 8 PLACES
(1701)  DO .1704 <- 'V.1704$"'&.1705$"'.1704$#0'~'#32767$#1'"'~'#0$#65535'"'~'#0$#65535'
        PLEASE .1705 <- '&.1705$"'.1705$#0'~'#32767$#1'"'~'#0$#65535'
        DO .1704 <- 'V.1704$"'&.1705$"'"'.1704$#0'~'#32767$#1'"$#0'~'#32767$#1'"'~'#0$#65535'"'~'#0$
           #65535'
        DO .1705 <- '&.1705$"'"'.1705$#0'~'#32767$#1'"$#0'~'#32767$#1'"'~'#0$#65535'
        DO .1704 <- 'V.1704$"'&.1705$"'"'"'.1704$#0'~'#32767$#1'"$#0'~'#32767$#1'"$#0'~'#16383$
           #3'"'~'#0$#65535'"'~'#0$#65535'
        PLEASE .1705 <- '&.1705$"'"'"'.1705$#0'~'#32767$#1'"$#0'~'#32767$#1'"$#0'~'#16383$#3'"'~'#0$
           #65535'
        DO .1704 <- 'V.1704$"'&.1705$"'"'"'"'.1704$#0'~'#32767$#1'"$#0'~'#32767$#1'"$#0'~'#16383$
           #3'"$#0'~'#4095$#15'"'~'#0$#65535'"'~'#0$#65535'
        DO .1703 <- '?.1703$"'.1704$#0'~'#32767$#1'"'~'#0$#65535'
        DO RESUME #1

PLEASE NOTE: THE SUM OF 32 BITS. :1703 IS :1701 + :1702, AND THE CARRY OUT OF IT TOPS .1704.
        EACH PAIR OF PLACES MAKES A CARRY OR PASSES ONE ON, AND THERE ARE SIXTEEN PAIRS
(1710)  DO .1711 <- '&":1701~'#0$#65535'"$":1702~'#0$#65535'"'~'#0$#65535'
        DO .1712 <- '?":1701~'#0$#65535'"$":1702~'#0$#65535'"'~'#0$#65535'
        DO .1713 <- '&":1701~'#65535$#0'"$":1702~'#65535$#0'"'~'#0$#65535'
        PLEASE .1714 <- '?":1701~'#65535$#0'"$":1702~'#65535$#0'"'~'#0$#65535'
        DO .1704 <- 'V.1713$"'&.1714$.1711'~'#0$#65535'"'~'#0$#65535'
        DO .1705 <- '&.1714$.1712'~'#0$#65535'
        DO (1701) NEXT
        PLEASE .1715 <- '.1704$#0'~'#32767$#1'
        DO :1703 <- '"?.1714$'"V.1711$'"&.1712$.1715"~"#0$#65535"'"~"#0$#65535"'"~"#0$#65535"'$
           '"?.1712$.1715"~"#0$#65535"'
        DO RESUME #1

PLEASE NOTE: THE WAY OUT OF ROUTINES THAT STOP. .1700 IS 2 IF ALL IS WELL
(1998)  DO RESUME .1700
(1999)  DO EXPECT NO ANSWER, FOR THE RESULT IS TOO LARGE

DO NOTE: (1500)  :3 <- :1 PLUS :2, AND STOP IF THAT IS TOO LARGE
(1500)  DO :1701 <- :1
        DO :1702 <- :2
        PLEASE (1710) NEXT
        DO :3 <- :1703
        DO .1700 <- '?".1704~#32768"$#2'~#3
        DO (1998) NEXT
        PLEASE (1999) NEXT
