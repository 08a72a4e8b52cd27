PLEASE NOTE: (10) PRINTS .1, A HALF AND A QUARTER OF IT. IT BORROWS .1 FOR THAT, AND GIVES
        IT BACK
        DO .1 <- #44
        DO (10) NEXT
        DO READ OUT .1
        PLEASE GIVE UP
(10)    DO STASH .1
        DO READ OUT .1
        DO .1 <- .1~#65534
        PLEASE READ OUT .1
        DO .1 <- .1~#65534
        DO READ OUT .1
        DO RETRIEVE .1
        PLEASE RESUME #1
