# The old provider creates without authorization, and the clock jumps once: the new provider removes the
# conflict and activates, though the old one never authorized the port.
after opening

BBBB /subscriptionVersionOldSP-Create concur authorized=false due=100
     200 port due=100 lrn=null status=conflict
AAAA /subscriptionVersionNewSP-Create create due=100
     200 port due=100 status=conflict
NPAC /clock minute=500
     200 now=500
AAAA /subscriptionVersionRemoveFromConflict id=1
     200 port due=100 since=500
AAAA /subscriptionVersionActivate id=1
     200 port attempt=1 due=100 since=500 status=sending
