# The expiration of conflicts becomes shorter before the windows make a conflict: it has the new one.
after created-for-5000

let shorter windows conflict_expiration=5

BBBB /subscriptionVersionCancel id=1
     200 far phase=initial since=10 status=cancel-pending
NPAC /clock minute=100
     200 now=100
NPAC /windows shorter
     200 now=100 set=2
NPAC /clock minute=129
     200 now=129
CCCC /versions/1
     200 far phase=final since=10 status=cancel-pending
NPAC /clock minute=130
     200 now=130
CCCC /versions/1
     200 far since=130 status=conflict
NPAC /clock minute=134
     200 now=134
CCCC /versions/1
     200 far since=130 status=conflict
NPAC /clock minute=135
     200 now=135
CCCC /versions/1
     200 far since=135 status=canceled
