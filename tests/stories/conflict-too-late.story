# A minute after the last one a conflict is too late.
after created-for-100

NPAC /clock minute=71
     200 now=71
BBBB /subscriptionVersionConflict id=1
     409 too_late 19
CCCC /versions/1
     200 near
