# The old provider cancels a port that has both creates. One jump goes over the conflict and its end.
after created-for-5000

BBBB /subscriptionVersionCancel id=1
     200 far phase=initial since=10 status=cancel-pending
NPAC /clock minute=2000
     200 now=2000
CCCC /versions/1
     200 far since=1130 status=canceled
