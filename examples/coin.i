PLEASE NOTE: A COIN. THE NEXT IS MADE IN ONE RUN, AND PASSED OVER IN ANOTHER
        DO ,1 <- #6
        DO ,1SUB#1 <- #234  DO ,1SUB#2 <- #112  PLEASE ,1SUB#3 <- #32
        DO ,1SUB#4 <- #96  DO ,1SUB#5 <- #88  DO ,1SUB#6 <- #126
        PLEASE ,2 <- #6
        DO ,2SUB#1 <- #210  DO ,2SUB#2 <- #168  DO ,2SUB#3 <- #240
        PLEASE ,2SUB#4 <- #96  DO ,2SUB#5 <- #104  DO ,2SUB#6 <- #126
        DO %50 (1) NEXT
        PLEASE READ OUT ,2
        DO GIVE UP
(1)     DO READ OUT ,1
        DO GIVE UP
