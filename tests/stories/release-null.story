# A disconnect whose release is null, or not there, is sent at once.
after active-port

NPAC /clock minute=10
     200 now=10
AAAA /subscriptionVersionDisconnect id=1 release=null
     200 active attempt=2 since=10 status=sending
NPAC /clock minute=25
     200 now=25
CCCC /versions/1
     200 active attempt=2 since=25
AAAA /subscriptionVersionDisconnect {"id":1}
     200 active attempt=3 since=25 status=sending
NPAC /clock minute=40
     200 now=40
AAAA /subscriptionVersionDisconnect { "release" : null, "id" : 1 }
     200 active attempt=4 since=40 status=sending
