# The old provider disputes a port that it has not created. Its create without authorization would be a
# second conflict; with authorization it is added, and the conflict stays until it is removed.
after opening

AAAA /subscriptionVersionNewSP-Create create due=100
     200 port due=100 phase=initial
NPAC /clock minute=5
     200 now=5
BBBB /subscriptionVersionConflict id=1
     200 port due=100 since=5 status=conflict
BBBB /subscriptionVersionRemoveFromConflict id=1
     409 not_concurred 16
BBBB /subscriptionVersionOldSP-Create concur authorized=false due=100
     409 conflict_spent 18
NPAC /clock minute=6
     200 now=6
BBBB /subscriptionVersionOldSP-Create concur due=100
     200 port due=100 since=5 status=conflict
NPAC /clock minute=7
     200 now=7
BBBB /subscriptionVersionRemoveFromConflict id=1
     200 port due=100 since=7
