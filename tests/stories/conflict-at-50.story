# A conflict is put at 50 on a port that is due at 100.
after created-for-100

NPAC /clock minute=50
     200 now=50
BBBB /subscriptionVersionConflict id=1
     200 near since=50 status=conflict
