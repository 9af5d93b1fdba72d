# One jump goes over the end of a retention that counts from the removal of a conflict.
after conflict-at-50

NPAC /clock minute=200
     200 now=200
BBBB /subscriptionVersionRemoveFromConflict id=1
     200 near since=200
NPAC /clock minute=9000
     200 now=9000
AAAA /subscriptionVersionActivate id=1
     409 wrong_status 13
CCCC /versions/1
     200 near since=700 status=canceled
