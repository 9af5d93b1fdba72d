# A conflict that a create without authorization made expires, though the new provider never creates.
after opening

BBBB /subscriptionVersionOldSP-Create concur authorized=false due=5000
     200 port due=5000 lrn=null status=conflict
NPAC /clock minute=999
     200 now=999
CCCC /versions/1
     200 port due=5000 lrn=null status=conflict
NPAC /clock minute=1000
     200 now=1000
CCCC /versions/1
     200 port due=5000 lrn=null since=1000 status=canceled
