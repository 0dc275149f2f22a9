cdc 1
scheme direct
procs 2
cache 1 1 1
bound 1000
tail rr
events
# The serial code up to the fork, and the boundary into the loop.
next 0 8
# The iteration of I = 4, up to its fault.
take 1 3
step 1 13
