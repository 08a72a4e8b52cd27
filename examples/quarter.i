PLEASE NOTE: ONE OF FOUR, EACH WITH THE CHANCE 1/4: THE MINGLE OF TWO COINS IS 0, 1, 2 OR 3
        DO .1 <- #0
        DO %50 .1 <- #1
        DO .2 <- #0
        DO %50 .2 <- #1
        DO :1 <- .1$.2
        DO READ OUT :1
        PLEASE GIVE UP
