! The first DOALL stores in A, and the second reads what the first one stored: two words that lie in one line of a cache.
! Each of its reads comes two boundaries behind the store, and those of B one, as `cdcc marks share.f` tells.
PROGRAM SHARE
  INTEGER A(4), B(4)
  DOALL I = 1, 4
    A(I) = A(I) + I
  END DOALL
  DOALL I = 1, 4
    B(I) = A(5 - I)
  END DOALL
  PRINT *, B(1), B(4)
END PROGRAM SHARE
