! Ten sweeps of the method of Jacobi over a grid of 64 by 64 points, each as two DOALL loops over the inner columns.
! The values begin as a plane, which the mean of the four neighbours leaves as it is, so what is printed is known by hand.
PROGRAM JACOBI
  IMPLICIT NONE
  INTEGER, PARAMETER :: N = 64
  INTEGER :: U(N, N), V(N, N), C(N)   ! two grids, one row of coefficients
  INTEGER :: I, J, K
  DO I = 1, N
    C(I) = 2 * I
  END DO
  DOALL J = 1, N PRIVATE(I)
    DO I = 1, N
      U(I, J) = 4 * (I + J)
    END DO
  END DOALL
  DO K = 1, 10
    DOALL J = 2, N - 1 PRIVATE(I)
      DO I = 2, N - 1
        V(I, J) = (U(I - 1, J) + U(I + 1, J) + U(I, J - 1) + &
                   U(I, J + 1)) / 4 + C(I) - 2 * I
      END DO
    END DOALL
    DOALL J = 2, N - 1 PRIVATE(I)
      DO I = 2, N - 1
        U(I, J) = V(I, J)
      END DO
    END DOALL
  END DO
  PRINT *, U(32, 32), U(1, 1), U(63, 2)
END PROGRAM JACOBI
