# The expiration of conflicts becomes shorter before the windows make a conflict: it has the new one. One jump goes over it.
after created-for-5000

let shorter windows conflict_expiration=5

BBBB /subscriptionVersionCancel id=1
     200 far phase=initial since=10 status=cancel-pending
NPAC /clock minute=100
     200 now=100
NPAC /windows shorter
     200 now=100 set=2
NPAC /clock minute=2000
     200 now=2000
CCCC /versions/1
     200 far since=135 status=canceled
