# The new provider removes a conflict after one jump to the end of its window.
after conflict-at-50

NPAC /clock minute=170
     200 now=170
AAAA /subscriptionVersionRemoveFromConflict id=1
     200 near since=170
