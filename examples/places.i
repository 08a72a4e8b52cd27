PLEASE NOTE: 4660 IS 18 * 256 + 52. A SELECT TAKES THE PLACES OF ONE BYTE TO THE RIGHT
        DO .1 <- #4660
        DO .2 <- .1~#65280
        DO .3 <- .1~#255
        PLEASE READ OUT .2 + .3

DO NOTE: AND, OR AND EXCLUSIVE OR OF 12 AND 10 ARE 8, 14 AND 6
        DO .1 <- #12
        DO .2 <- #10
        DO .3 <- '&.1$.2'~'#0$#65535'
        PLEASE .4 <- 'V.1$.2'~'#0$#65535'
        DO .5 <- '?.1$.2'~'#0$#65535'
        DO READ OUT .3 + .4 + .5
        PLEASE GIVE UP
