PLEASE NOTE: A GAMBLER HAS TWO COINS, AND THE OTHER ONE TWO. HE WINS A GAME AT 49 IN 100, AND
        THEN A COIN. HE ENDS WITH FOUR OR NONE: BIT 5 OR BIT 1 OF .1
        DO .1 <- #4
(10)    DO FORGET #1
        DO .2 <- .1~#30
        PLEASE %49 .2 <- '.1$#0'~'#15$#1'
        DO .1 <- .2

DO NOTE: .5 IS 2 AT AN END AND 1 BETWEEN THEM
        DO .5 <- '?"'".1~#17"~".1~#17"'~#1"$#1'~#3
        PLEASE (20) NEXT
        DO READ OUT .1
        DO GIVE UP
(20)    DO (30) NEXT
        PLEASE FORGET #1
        DO (10) NEXT
(30)    DO RESUME .5
