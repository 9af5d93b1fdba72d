# A conflict that a create without authorization made has expired at its minute, after one jump: there is room
# for another create.
after opening

BBBB /subscriptionVersionOldSP-Create concur authorized=false due=5000
     200 port due=5000 lrn=null status=conflict
NPAC /clock minute=4000
     200 now=4000
AAAA /subscriptionVersionNewSP-Create create due=5000
     200 port due=5000 id=2 phase=initial since=4000
CCCC /versions/1
     200 port due=5000 lrn=null since=1000 status=canceled
