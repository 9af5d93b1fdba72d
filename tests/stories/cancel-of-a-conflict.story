# A conflict with both creates is cancelled as a pending version is. The windows make a conflict again of
# what the old provider cancelled, and end what the new one did.
after opening

AAAA /subscriptionVersionNewSP-Create create due=5000
     200 port due=5000 phase=initial
BBBB /subscriptionVersionOldSP-Create concur authorized=false due=5000
     200 port due=5000 status=conflict
NPAC /clock minute=10
     200 now=10
BBBB /subscriptionVersionCancel id=1
     200 port due=5000 phase=initial since=10 status=cancel-pending
NPAC /clock minute=130
     200 now=130
CCCC /versions/1
     200 port due=5000 since=130 status=conflict
AAAA /subscriptionVersionCancel id=1
     200 port due=5000 phase=initial since=130 status=cancel-pending
NPAC /clock minute=250
     200 now=250
CCCC /versions/1
     200 port due=5000 since=250 status=canceled
