(1) DO (1) NEXT
