PLEASE NOTE: A NAME, AS A TEXT OF BYTES. ICK-SAY PRINTED THESE STATEMENTS
        DO ,1 <- #13
        DO ,1SUB#1 <- #126
        DO ,1SUB#2 <- #92
        PLEASE ,1SUB#3 <- #160
        DO ,1SUB#4 <- #130
        DO ,1SUB#5 <- #210
        DO ,1SUB#6 <- #60
        PLEASE ,1SUB#7 <- #136
        DO ,1SUB#8 <- #200
        DO ,1SUB#9 <- #112
        DO ,1SUB#10 <- #176
        PLEASE ,1SUB#11 <- #192
        DO ,1SUB#12 <- #32
        DO ,1SUB#13 <- #86
        DO READ OUT ,1
        DO GIVE UP
