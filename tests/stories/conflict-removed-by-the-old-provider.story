# The old provider may remove its conflict at any time.
after conflict-at-50

NPAC /clock minute=51
     200 now=51
BBBB /subscriptionVersionRemoveFromConflict id=1
     200 near since=51
