# A conflict that the cancellation windows made is removed, and the old provider may still put its own.
after created-for-5000

BBBB /subscriptionVersionCancel id=1
     200 far phase=initial since=10 status=cancel-pending
NPAC /clock minute=130
     200 now=130
CCCC /versions/1
     200 far since=130 status=conflict
NPAC /clock minute=131
     200 now=131
BBBB /subscriptionVersionRemoveFromConflict id=1
     200 far since=131
NPAC /clock minute=200
     200 now=200
BBBB /subscriptionVersionConflict id=1
     200 far since=200 status=conflict
BBBB /subscriptionVersionRemoveFromConflict id=1
     200 far since=200
BBBB /subscriptionVersionConflict id=1
     409 conflict_spent 18
