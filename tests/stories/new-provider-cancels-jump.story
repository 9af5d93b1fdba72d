# The new provider cancels a port that has both creates. One jump goes over the end of the windows.
after created-for-5000

AAAA /subscriptionVersionCancel id=1
     200 far phase=initial since=10 status=cancel-pending
NPAC /clock minute=2000
     200 now=2000
CCCC /versions/1
     200 far since=130 status=canceled
