# The old provider answers the new one's create without authorization: a conflict from that minute on, its
# one.
after opening

AAAA /subscriptionVersionNewSP-Create create due=100
     200 port due=100 phase=initial
NPAC /clock minute=5
     200 now=5
BBBB /subscriptionVersionOldSP-Create concur authorized=false due=100
     200 port due=100 since=5 status=conflict
NPAC /clock minute=6
     200 now=6
CCCC /versions/1
     200 port due=100 since=5 status=conflict
BBBB /subscriptionVersionOldSP-Create concur authorized=false due=100
     409 busy 12
BBBB /subscriptionVersionRemoveFromConflict id=1
     200 port due=100 since=6
BBBB /subscriptionVersionConflict id=1
     409 conflict_spent 18
