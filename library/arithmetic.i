        PLEASE GIVE UP BEFORE THE LIBRARY BEGINS

DO NOTE: SUMS, PRODUCTS, QUOTIENTS AND CHANCE. FIRST THE PARTS THAT ONLY THE LIBRARY CALLS

DO NOTE: THE SUM OF 16 BITS. .1703 IS .1701 + .1702, AND .1704 HAS THE CARRY OUT OF EACH
        PLACE
(1700)  DO .1704 <- '&.1701$.1702'~'#0$#65535'
        PLEASE .1705 <- '?.1701$.1702'~'#0$#65535'
        DO .1703 <- .1705

DO NOTE: PLACES THAT MAKE A CARRY ARE IN .1704, THOSE THAT PASS ONE ON IN .1705: OVER 1, 2,
        4 AND 8 PLACES
(1701)  DO .1704 <- 'V.1704$"'&.1705$"'.1704$#0'~'#32767$#1'"'~'#0$#65535'"'~'#0$#65535'
        PLEASE .1705 <- '&.1705$"'.1705$#0'~'#32767$#1'"'~'#0$#65535'
        DO .1704 <- 'V.1704$"'&.1705$"'"'.1704$#0'~'#32767$#1'"$#0'~'#32767$#1'"'~'#0$#65535'"'~'#0$
           #65535'
        DO .1705 <- '&.1705$"'"'.1705$#0'~'#32767$#1'"$#0'~'#32767$#1'"'~'#0$#65535'
        DO .1704 <- 'V.1704$"'&.1705$"'"'"'.1704$#0'~'#32767$#1'"$#0'~'#32767$#1'"$#0'~'#16383$
           #3'"'~'#0$#65535'"'~'#0$#65535'
        PLEASE .1705 <- '&.1705$"'"'"'.1705$#0'~'#32767$#1'"$#0'~'#32767$#1'"$#0'~'#16383$#3'"'~'#0$
           #65535'
        DO .1704 <- 'V.1704$"'&.1705$"'"'"'"'.1704$#0'~'#32767$#1'"$#0'~'#32767$#1'"$#0'~'#16383$
           #3'"$#0'~'#4095$#15'"'~'#0$#65535'"'~'#0$#65535'
        DO .1703 <- '?.1703$"'.1704$#0'~'#32767$#1'"'~'#0$#65535'
        DO RESUME #1

PLEASE NOTE: THE SUM OF 32 BITS. :1703 IS :1701 + :1702, AND THE CARRY OUT OF IT TOPS .1704.
        EACH PAIR OF PLACES MAKES A CARRY OR PASSES ONE ON, AND THERE ARE SIXTEEN PAIRS
(1710)  DO .1711 <- '&":1701~'#0$#65535'"$":1702~'#0$#65535'"'~'#0$#65535'
        DO .1712 <- '?":1701~'#0$#65535'"$":1702~'#0$#65535'"'~'#0$#65535'
        DO .1713 <- '&":1701~'#65535$#0'"$":1702~'#65535$#0'"'~'#0$#65535'
        PLEASE .1714 <- '?":1701~'#65535$#0'"$":1702~'#65535$#0'"'~'#0$#65535'
        DO .1704 <- 'V.1713$"'&.1714$.1711'~'#0$#65535'"'~'#0$#65535'
        DO .1705 <- '&.1714$.1712'~'#0$#65535'
        DO (1701) NEXT
        PLEASE .1715 <- '.1704$#0'~'#32767$#1'
        DO :1703 <- '"?.1714$'"V.1711$'"&.1712$.1715"~"#0$#65535"'"~"#0$#65535"'"~"#0$#65535"'$
           '"?.1712$.1715"~"#0$#65535"'
        DO RESUME #1

DO NOTE: :1720 IS UNSHUFFLED: FOUR SHUFFLES BRING TWO MINGLED HALVES ONE BEHIND THE OTHER
(1720)  PLEASE (1721) NEXT
(1721)  DO (1722) NEXT
(1722)  DO :1720 <- ':1720~"#65280$#65280"'$':1720~#65535'
        DO RESUME #1

PLEASE NOTE: THE PRODUCT OF 16 BITS. .1733 AND .1734 ARE THE UPPER AND LOWER HALF OF .1731
        TIMES .1732
(1730)  DO ,1730 <- #3
        DO ,1730SUB#1 <- #0
        DO ,1730SUB#3 <- .1731
        PLEASE .1733 <- #0
        DO (1731) NEXT

DO NOTE: THE LOWER HALF CAME IN FROM THE RIGHT, SO IT IS TURNED ROUND
        DO .1734 <- '.1734~#255'$'.1734~#65280'
        PLEASE .1734 <- '.1734~#255'$'.1734~#65280'
        DO .1734 <- '.1734~#255'$'.1734~#65280'
        DO .1734 <- '.1734~#255'$'.1734~#65280'
        DO RESUME #1
(1731)  PLEASE (1732) NEXT
(1732)  DO (1733) NEXT
(1733)  DO (1734) NEXT
(1734)  DO (1735) NEXT
(1735)  PLEASE .1701 <- .1733
        DO .1702 <- ,1730SUB'".1732~#1"$#1'
        DO (1700) NEXT
        DO .1734 <- '.1734$.1703'~'#32767$#1'
        PLEASE .1733 <- '.1704$.1703'~'#32768$#65534'
        DO .1732 <- .1732~#65534
        DO RESUME #1

DO NOTE: THE QUOTIENT OF 16 BITS. .1744 IS .1741 IN FRONT OF .1742, OVER .1743; .1741 IS
        LEFT OVER. IT IS BELOW .1743 AT FIRST. OVER 0 ALL IS 0
(1740)  PLEASE ,1740 <- #3
        DO (1741) NEXT
        DO ,1740SUB#1 <- #0
        DO ,1740SUB#3 <- .1744
        PLEASE .1744 <- ,1740SUB'"'.1743~.1743'~#1"$#1'
        DO RESUME #1
(1741)  DO (1742) NEXT
(1742)  DO (1743) NEXT
(1743)  PLEASE (1744) NEXT
(1744)  DO (1745) NEXT
(1745)  DO .1745 <- .1741~#32768
        DO .1741 <- '.1741$".1742~#32768"'~'#32767$#1'
        PLEASE .1742 <- '.1742$#0'~'#32767$#1'
        DO .1701 <- '?.1741$#65535'~'#0$#65535'
        DO .1702 <- .1743
        DO (1700) NEXT
        PLEASE .1745 <- 'V.1745$"'?".1704~#32768"$#1'~#1"'~#1
        DO ,1740SUB#1 <- .1741
        DO ,1740SUB#3 <- '?.1703$#65535'~'#0$#65535'
        DO .1741 <- ,1740SUB'.1745$#1'
        PLEASE .1744 <- '.1744$.1745'~'#32767$#1'
        DO RESUME #1

DO NOTE: THE PRODUCT OF 32 BITS. :1753 IS THE LOWER HALF OF :1 TIMES :2, AND .1753 IS 1 IF
        THAT ISN'T ALL
(1750)  DO .1753 <- '&"'":1~'#65280$#65280'"~":1~'#65280$#65280'"'~#1"$"'":2~'#65280$#65280'"~":2~
           '#65280$#65280'"'~#1"'~'#0$#65535'
        PLEASE .1731 <- :1~#65535
        DO .1732 <- :2~#65535
        DO (1730) NEXT
        DO .1751 <- .1734
        PLEASE .1752 <- .1733
        DO .1731 <- :1~'#65280$#65280'
        DO .1732 <- :2~#65535
        DO (1751) NEXT
        PLEASE .1731 <- :1~#65535
        DO .1732 <- :2~'#65280$#65280'
        DO (1751) NEXT
        DO :1720 <- .1752$.1751
        PLEASE (1720) NEXT
        DO :1753 <- :1720
        DO RESUME #1
(1751)  DO (1730) NEXT
        PLEASE .1701 <- .1734
        DO .1702 <- .1752
        DO (1700) NEXT
        DO .1752 <- .1703
        PLEASE .1753 <- 'V.1753$"'V"'.1733~.1733'~#1"$".1704~#32768"'~#1"'~#1
        DO RESUME #1

DO NOTE: ONE PLACE OF A QUOTIENT OF 32 BITS. :1761 AND :1762 MOVE ON, AND :2 IS TAKEN FROM
        :1761 IF IT CAN BE
(1760)  DO (1761) NEXT
(1761)  PLEASE (1762) NEXT
(1762)  DO (1763) NEXT
(1763)  DO (1764) NEXT
(1764)  DO (1765) NEXT
(1765)  PLEASE .1765 <- :1761~'#32768$#0'
        DO :1761 <- ':1761~"#0$#65535"'$'"':1761~"#65535$#0"'$':1762~"#32768$#0"'"~"#32767$#1"'
        DO :1762 <- ':1762~"#0$#65535"'$'"':1762~"#65535$#0"'$#0"~"#32767$#1"'
        DO :1701 <- '"?':1761~"#65535$#0"'$#65535"~"#0$#65535"'$'"?':1761~"#0$#65535"'$#65535"~"#0$
           #65535"'
        PLEASE :1702 <- :2
        DO (1710) NEXT
        DO .1765 <- 'V.1765$"'?".1704~#32768"$#1'~#1"'~#1
        DO ;1760SUB#1 <- :1761
        PLEASE ;1760SUB#3 <- '"?':1703~"#65535$#0"'$#65535"~"#0$#65535"'$'"?':1703~"#0$#65535"'$
           #65535"~"#0$#65535"'
        DO :1761 <- ;1760SUB'.1765$#1'
        DO :1764 <- ':1764~"#0$#65535"'$'"':1764~"#65535$#0"'$.1765"~"#32767$#1"'
        DO RESUME #1

PLEASE NOTE: THE WAY OUT OF ROUTINES THAT STOP. .1700 IS 2 IF ALL IS WELL
(1998)  DO RESUME .1700
(1999)  DO EXPECT NO ANSWER, FOR THE RESULT IS TOO LARGE

DO NOTE: (1001)  THE WAY OUT OF A TEST. .5 IS 1 TO GO ON, AND 2 TO GO BACK
(1001)  PLEASE RESUME .5

DO NOTE: (1000)  .3 <- .1 PLUS .2, AND STOP IF THAT IS TOO LARGE
(1000)  DO .1701 <- .1
        DO .1702 <- .2
        PLEASE (1700) NEXT
        DO .3 <- .1703
        DO .1700 <- '?".1704~#32768"$#2'~#3
        DO (1998) NEXT
        PLEASE (1999) NEXT

DO NOTE: (1009)  .3 <- .1 PLUS .2, AND .4 <- #1, OR #2 IF A CARRY IS LOST
(1009)  DO .1701 <- .1
        DO .1702 <- .2
        PLEASE (1700) NEXT
        DO .3 <- .1703
        DO .4 <- '?".1704~#32768"$#1'~#3
        DO RESUME #1

PLEASE NOTE: (1010)  .3 <- .1 MINUS .2, MODULO 65536
(1010)  DO .1701 <- '?.1$#65535'~'#0$#65535'
        DO .1702 <- .2
        DO (1700) NEXT
        PLEASE .3 <- '?.1703$#65535'~'#0$#65535'
        DO RESUME #1

DO NOTE: (1020)  .1 <- .1 PLUS #1, MODULO 65536
(1020)  DO .1701 <- .1
        PLEASE .1702 <- #1
        DO (1700) NEXT
        DO .1 <- .1703
        DO RESUME #1

PLEASE NOTE: (1021)  FOR OLD PROGRAMS THAT ENTER (1020) HERE AFTER A STASH: .1 <- .1 PLUS
        .2, AND BACK BY TWO
(1021)  DO .1701 <- .1
        DO .1702 <- .2
        DO (1700) NEXT
        PLEASE .1 <- .1703
        DO RETRIEVE .2 + .3
        DO RESUME #2

DO NOTE: (1030)  .3 <- .1 TIMES .2, AND STOP IF THAT IS TOO LARGE
(1030)  PLEASE .1731 <- .1
        DO .1732 <- .2
        DO (1730) NEXT
        DO .3 <- .1734
        PLEASE .1700 <- '?"'.1733~.1733'~#1"$#2'~#3
        DO (1998) NEXT
        DO (1999) NEXT

DO NOTE: (1039)  .3 <- .1 TIMES .2, AND .4 <- #1, OR #2 IF THIS IS THE LOWER HALF ALONE
(1039)  PLEASE .1731 <- .1
        DO .1732 <- .2
        DO (1730) NEXT
        DO .3 <- .1734
        PLEASE .4 <- '?"'.1733~.1733'~#1"$#1'~#3
        DO RESUME #1

DO NOTE: (1040)  .3 <- .1 OVER .2, OR #0 IF .2 IS 0
(1040)  DO .1741 <- #0
        PLEASE .1742 <- .1
        DO .1743 <- .2
        DO (1740) NEXT
        DO .3 <- .1744
        PLEASE RESUME #1

DO NOTE: (1050)  .2 <- :1 OVER .1, OR #0 IF .1 IS 0, AND STOP IF THAT IS TOO LARGE
(1050)  DO .1701 <- '?":1~'#65280$#65280'"$#65535'~'#0$#65535'
        DO .1702 <- .1
        PLEASE (1700) NEXT
        DO .1700 <- '?"'V".1704~#32768"$"'?"'.1~.1'~#1"$#1'~#1"'~#1"$#1'~#3
        DO .1741 <- :1~'#65280$#65280'
        DO .1742 <- :1~#65535
        PLEASE .1743 <- .1
        DO (1740) NEXT
        DO .2 <- .1744
        DO (1998) NEXT
        PLEASE (1999) NEXT

DO NOTE: (1500)  :3 <- :1 PLUS :2, AND STOP IF THAT IS TOO LARGE
(1500)  DO :1701 <- :1
        DO :1702 <- :2
        PLEASE (1710) NEXT
        DO :3 <- :1703
        DO .1700 <- '?".1704~#32768"$#2'~#3
        DO (1998) NEXT
        PLEASE (1999) NEXT

DO NOTE: (1509)  :3 <- :1 PLUS :2, AND :4 <- #1, OR #2 IF A CARRY IS LOST
(1509)  DO :1701 <- :1
        DO :1702 <- :2
        PLEASE (1710) NEXT
        DO :3 <- :1703
        DO :4 <- '?".1704~#32768"$#1'~#3
        DO RESUME #1

PLEASE NOTE: (1510)  :3 <- :1 MINUS :2, MODULO 4294967296
(1510)  DO :1701 <- '"?':1~"#65535$#0"'$#65535"~"#0$#65535"'$'"?':1~"#0$#65535"'$#65535"~"#0$
           #65535"'
        DO :1702 <- :2
        DO (1710) NEXT
        PLEASE :3 <- '"?':1703~"#65535$#0"'$#65535"~"#0$#65535"'$'"?':1703~"#0$#65535"'$#65535"~"#0$
           #65535"'
        DO RESUME #1

DO NOTE: (1520)  :1 <- .1 IN FRONT OF .2
(1520)  DO :1720 <- .1$.2
        PLEASE (1720) NEXT
        DO :1 <- :1720
        DO RESUME #1

DO NOTE: (1525)  .3 <- .3, EIGHT PLACES TO THE LEFT
(1525)  PLEASE .3 <- '"'"'"'.3$#0'~'#32767$#1'"$#0'~'#32767$#1'"$#0'~'#16383$#3'"$#0'~'#4095$#15'
        DO RESUME #1

DO NOTE: (1530)  :1 <- .1 TIMES .2
(1530)  DO .1731 <- .1
        PLEASE .1732 <- .2
        DO (1730) NEXT
        DO :1720 <- .1733$.1734
        DO (1720) NEXT
        PLEASE :1 <- :1720
        DO RESUME #1

DO NOTE: (1540)  :3 <- :1 TIMES :2, AND STOP IF THAT IS TOO LARGE
(1540)  DO (1750) NEXT
        PLEASE :3 <- :1753
        DO .1700 <- '?.1753$#2'~#3
        DO (1998) NEXT
        DO (1999) NEXT

PLEASE NOTE: (1549)  :3 <- :1 TIMES :2, AND :4 <- #1, OR #2 IF THIS IS THE LOWER HALF ALONE
(1549)  DO (1750) NEXT
        DO :3 <- :1753
        DO :4 <- '?.1753$#1'~#3
        PLEASE RESUME #1

DO NOTE: (1550)  :3 <- :1 OVER :2, OR #0 IF :2 IS 0
(1550)  DO ;1760 <- #3
        DO :1761 <- #0
        PLEASE :1762 <- :1
        DO (1760) NEXT
        DO ;1760SUB#1 <- #0
        DO ;1760SUB#3 <- :1764
        PLEASE :3 <- ;1760SUB'"':2~:2'~#1"$#1'
        DO RESUME #1

DO NOTE: (1900)  .1 <- A NUMBER FROM 0 TO 65535, BY SIXTEEN COINS
(1900)  DO (1901) NEXT
        PLEASE .1 <- .1900
        DO RESUME #1
(1901)  DO (1902) NEXT
(1902)  DO (1903) NEXT
(1903)  PLEASE (1904) NEXT
(1904)  DO (1905) NEXT
(1905)  DO .1900 <- '.1900$#0'~'#32767$#1'
        DO %50 .1900 <- 'V.1900$#1'~'#0$#65535'
        PLEASE RESUME #1

DO NOTE: (1910)  .2 <- A NUMBER FROM 0 TO .1, MOSTLY NEAR THE MIDDLE: .1 TIMES THE MEAN OF
        TWELVE OTHERS, BOTH ROUNDED
(1910)  DO :1910 <- #6
        DO (1911) NEXT
        PLEASE (1911) NEXT
        DO (1911) NEXT
        DO .1741 <- :1910~'#65280$#65280'
        DO .1742 <- :1910~#65535
        PLEASE .1743 <- #12
        DO (1740) NEXT
        DO .1731 <- .1744
        DO .1732 <- .1
        PLEASE (1730) NEXT
        DO .1701 <- .1733
        DO .1702 <- .1734~#32768
        DO (1700) NEXT
        PLEASE .2 <- .1703
        DO RESUME #1
(1911)  DO (1912) NEXT
(1912)  DO (1913) NEXT
(1913)  PLEASE (1901) NEXT
        DO :1701 <- .1900
        DO :1702 <- :1910
        DO (1710) NEXT
        PLEASE :1910 <- :1703
        DO RESUME #1
