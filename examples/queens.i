PLEASE NOTE: FOUR QUEENS ON FOUR ROWS, OF WHICH NONE TAKES ANOTHER. TWO CHOICES PUT THE QUEEN
        OF A ROW INTO ONE OF THE COLUMNS 1, 2, 4 AND 8
        DO ,1 <- #11
        DO ,1SUB#1 <- #1
        DO ,1SUB#3 <- #2
        PLEASE ,1SUB#9 <- #4
        DO ,1SUB#11 <- #8

DO NOTE: ,2 HAS ONE ELEMENT, SO ,2SUB#0 IS FAULT 241
        DO ,2 <- #1
        DO (10) NEXT
        DO (10) NEXT
        PLEASE (10) NEXT
        DO (10) NEXT
        DO GIVE UP
(10)    DO .6 <- #0
        PLEASE .7 <- #0
        DO %50 .6 <- #1
        DO %50 .7 <- #1
        DO .9 <- ,1SUB"'.6$.7'$#1"

DO NOTE: .1 HAS THE COLUMNS THAT ARE TAKEN, .2 AND .3 THE DIAGONALS. .9 MUST BE NONE OF THEM
        PLEASE .4 <- 'V.1$.2'~'#0$#65535'
        DO .4 <- 'V.4$.3'~'#0$#65535'
        DO ,2SUB'"?'.4~.9'$#1"~#1' <- #0
        PLEASE READ OUT .9

DO NOTE: A DIAGONAL IS ONE COLUMN FURTHER IN THE NEXT ROW
        DO .1 <- 'V.1$.9'~'#0$#65535'
        DO .2 <- 'V.2$.9'~'#0$#65535'
        PLEASE .3 <- 'V.3$.9'~'#0$#65535'
        DO .2 <- '.2$#0'~'#32767$#1'
        DO .3 <- .3~#65534
        PLEASE RESUME #1
