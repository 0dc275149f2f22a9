! Two iterations of the loop fault: that of I = 2 by a subscript, and that of I = 4 by an overflow.
! The schedule has I = 4 fault first, and yet I = 2 is told: a fault waits for the end of its epoch, and the least one counts.
PROGRAM FAULT
  INTEGER :: A(4)
  PRINT *, 'a'
  DOALL I = 1, 4
    IF (I == 2) A(I + 9) = 1
    IF (I == 4) A(I) = 9223372036854775807 + I
  END DOALL
END PROGRAM FAULT
