# A create without authorization is the old provider's one conflict.
after opening

BBBB /subscriptionVersionOldSP-Create concur authorized=false due=5000
     200 port due=5000 lrn=null status=conflict
BBBB /subscriptionVersionOldSP-Create concur authorized=false due=5000
     409 busy 12
BBBB /subscriptionVersionOldSP-Create concur due=5000
     409 busy 12
AAAA /subscriptionVersionNewSP-Create create due=5000
     200 port due=5000 status=conflict
NPAC /clock minute=5
     200 now=5
BBBB /subscriptionVersionRemoveFromConflict id=1
     200 port due=5000 since=5
BBBB /subscriptionVersionConflict id=1
     409 conflict_spent 18
