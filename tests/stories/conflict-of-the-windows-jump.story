# One jump goes over the minute in which the cancellation windows made a conflict: the command finds it, and
# after it the old provider may still put its own.
after created-for-5000

BBBB /subscriptionVersionCancel id=1
     200 far phase=initial since=10 status=cancel-pending
NPAC /clock minute=249
     200 now=249
AAAA /subscriptionVersionRemoveFromConflict id=1
     409 too_early 20
NPAC /clock minute=250
     200 now=250
AAAA /subscriptionVersionRemoveFromConflict id=1
     200 far since=250
BBBB /subscriptionVersionConflict id=1
     200 far since=250 status=conflict
