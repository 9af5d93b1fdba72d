# A conflict is put in the last minute in which it may be, removed, and not put again.
after created-for-100

NPAC /clock minute=70
     200 now=70
BBBB /subscriptionVersionConflict id=1
     200 near since=70 status=conflict
BBBB /subscriptionVersionConflict id=1
     409 wrong_status 13
AAAA /subscriptionVersionActivate id=1
     409 wrong_status 13
NPAC /clock minute=71
     200 now=71
BBBB /subscriptionVersionRemoveFromConflict id=1
     200 near since=71
BBBB /subscriptionVersionRemoveFromConflict id=1
     409 wrong_status 13
BBBB /subscriptionVersionConflict id=1
     409 conflict_spent 18
CCCC /versions/1
     200 near since=71
AAAA /subscriptionVersionActivate id=1
     409 before_due 17
NPAC /clock minute=100
     200 now=100
AAAA /subscriptionVersionActivate id=1
     200 near attempt=1 since=100 status=sending
