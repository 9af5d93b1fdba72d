# The delete of a number that was routed with a carrier's code shows neither the code nor a routing number.
after second-port

EEEE /downloads/10
     200 downloads=[]
CCCC /subscriptionVersionDisconnect id=2
     200 onward attempt=2 status=sending
EEEE /downloads/10
     200 {"downloads":[{"action":"delete","attempt":2,"cic":null,"id":2,"lrn":null,"minute":0,"subject":"2025331234"}]}
