PLEASE NOTE: A FAIR COIN OUT OF AN UNFAIR ONE: THROW IT TWICE, UNTIL THE TWO DIFFER, AND
        TAKE THE FIRST
(10)    DO FORGET #1
        DO .1 <- #0
        DO %30 .1 <- #1
        PLEASE .2 <- #0
        DO %30 .2 <- #1
        DO .5 <- '?"'?.1$.2'~#1"$#1'~#3
        DO (20) NEXT
        PLEASE READ OUT .1
        DO GIVE UP
(20)    DO (30) NEXT
        DO FORGET #1
        PLEASE (10) NEXT
(30)    DO RESUME .5
