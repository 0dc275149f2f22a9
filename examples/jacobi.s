# Four processors without caches; each has its turn in order, until the program ends.
cdc 1
scheme direct
procs 4
cache 1 1 1
bound 1000000000
tail rr
events
