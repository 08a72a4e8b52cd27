PLEASE NOTE: A FERRYMAN TAKES A WOLF, A GOAT AND A CABBAGE OVER A RIVER, AT MOST ONE OF THEM
        AT A TIME. WITHOUT HIM THE WOLF EATS THE GOAT, AND THE GOAT THE CABBAGE. SEVEN
        CROSSINGS MUST BE ENOUGH

DO NOTE: ,2 HAS THE SIDE OF EACH, 0 OR 1: ELEMENT 1 OF THE FERRYMAN, 3 OF THE WOLF, 9 OF THE
        GOAT, 11 OF THE CABBAGE. .9 HAS A 1 FOR EACH CROSSING THAT IS LEFT
        DO ,2 <- #11
        PLEASE .9 <- #127

DO NOTE: ,1 HAS ONE ELEMENT, SO ,1SUB#0 IS FAULT 241
        DO ,1 <- #1
        DO (10) NEXT
(10)    PLEASE FORGET #1
        DO .6 <- #0
        DO .7 <- #0
        DO %50 .6 <- #1
        PLEASE %50 .7 <- #1
        DO .8 <- '.6$.7'$#1

DO NOTE: WHO CROSSES MUST BE ON THE SIDE OF THE FERRYMAN
        DO .1 <- '?,2SUB.8$.4'~#1
        PLEASE .1 <- '?.1$#1'~#1
        DO ,1SUB.1 <- #0
        DO .4 <- '?.4$#1'~#1
        DO ,2SUB#1 <- .4
        DO ,2SUB.8 <- .4
        DO READ OUT .8

DO NOTE: .1 IS 1 IF THE FERRYMAN IS WITH THE GOAT, AND .2 IS 1 IF NEITHER WOLF NOR CABBAGE
        IS. ONE OF THEM MUST BE 1
        DO .1 <- '?,2SUB#9$.4'~#1
        PLEASE .1 <- '?.1$#1'~#1
        DO .2 <- '?,2SUB#3$,2SUB#9'~#1
        DO .3 <- '?,2SUB#11$,2SUB#9'~#1
        PLEASE .2 <- '&.2$.3'~#1
        DO .1 <- 'V.1$.2'~#1
        DO ,1SUB.1 <- #0

DO NOTE: IF ALL ARE ON SIDE 1, .5 IS 2
        DO .1 <- '&,2SUB#3$,2SUB#9'~#1
        DO .1 <- '&.1$,2SUB#11'~#1
        DO .5 <- '?.1$#1'~#3
        PLEASE (20) NEXT
        DO GIVE UP
(20)    DO (30) NEXT
        DO FORGET #1

DO NOTE: IF NO CROSSING IS LEFT, THE SUBSCRIPT IS 0
        PLEASE .9 <- .9~#65534
        DO ,1SUB'"'.9~.9'~#1"' <- #0
        DO (10) NEXT
(30)    PLEASE RESUME .5
