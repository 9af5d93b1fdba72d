# A second create without authorization comes in the last minute in which it may.
after opening

AAAA /subscriptionVersionNewSP-Create create due=100
     200 port due=100 phase=initial
NPAC /clock minute=70
     200 now=70
BBBB /subscriptionVersionOldSP-Create concur authorized=false due=100
     200 port due=100 since=70 status=conflict
