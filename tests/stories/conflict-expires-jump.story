# A conflict that nobody removes has expired at its minute, however far the clock jumps over it.
after conflict-at-50

NPAC /clock minute=5000
     200 now=5000
BBBB /subscriptionVersionRemoveFromConflict id=1
     409 wrong_status 13
CCCC /versions/1
     200 near since=1050 status=canceled
