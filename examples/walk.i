PLEASE NOTE: FIVE PLACES IN A ROW, AND A WALK BY COINS FROM THE MIDDLE TO ONE OF THE ENDS.
        THE PLACE IS A BIT OF .1
        DO .1 <- #4
(10)    DO FORGET #1
        DO .2 <- .1~#30
        PLEASE %50 .2 <- '.1$#0'~'#15$#1'
        DO .1 <- .2

DO NOTE: .5 IS 2 AT AN END AND 1 BETWEEN THEM
        DO .5 <- '?"'".1~#17"~".1~#17"'~#1"$#1'~#3
        PLEASE (20) NEXT
        DO READ OUT .1
        DO GIVE UP
(20)    DO (30) NEXT
        PLEASE FORGET #1
        DO (10) NEXT
(30)    DO RESUME .5
