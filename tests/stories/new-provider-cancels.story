# The new provider cancels a port that has both creates, and the old one is silent: canceled, minute by
# minute.
after created-for-5000

AAAA /subscriptionVersionCancel id=1
     200 far phase=initial since=10 status=cancel-pending
NPAC /clock minute=69
     200 now=69
CCCC /versions/1
     200 far phase=initial since=10 status=cancel-pending
NPAC /clock minute=70
     200 now=70
CCCC /versions/1
     200 far phase=final since=10 status=cancel-pending
NPAC /clock minute=129
     200 now=129
CCCC /versions/1
     200 far phase=final since=10 status=cancel-pending
NPAC /clock minute=130
     200 now=130
CCCC /versions/1
     200 far since=130 status=canceled
