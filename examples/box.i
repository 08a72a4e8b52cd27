PLEASE NOTE: SEVEN LETTERS COME INTO A BOX FOR SIX. BETWEEN TWO LETTERS A CLERK MAY EMPTY
        THE BOX
        DO ,2 <- #5
        DO ,2SUB#1 <- #54  DO ,2SUB#2 <- #68  PLEASE ,2SUB#3 <- #32
        DO ,2SUB#4 <- #192  DO ,2SUB#5 <- #86

DO NOTE: .1 HAS A 1 FOR EACH LETTER IN THE BOX: 1, 3, 7, 15, 31, 63, AND 127 IS NO ELEMENT
        OF ,1
        PLEASE ,1 <- #63
        DO (10) NEXT
        DO (20) NEXT
        DO (20) NEXT
        PLEASE (20) NEXT
        DO (20) NEXT
        DO (20) NEXT
        DO (20) NEXT
        PLEASE READ OUT ,2
        DO GIVE UP
(20)    DO %50 .1 <- #0
(10)    DO .1 <- '.1$#1'~'#32767$#1'
        PLEASE ,1SUB.1 <- #1
        DO RESUME #1
