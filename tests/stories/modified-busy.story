# While the modify of a port is under way it is neither ported nor given back, nor modified again.
after modified

CCCC /subscriptionVersionNewSP-Create due=400 lrn=2025550000 new=CCCC old=AAAA tn=2025331234
     409 busy 12
AAAA /subscriptionVersionOldSP-Create authorized=true due=400 new=CCCC old=AAAA tn=2025331234
     409 busy 12
AAAA /subscriptionVersionDisconnect id=1
     409 wrong_status 13
AAAA /subscriptionVersionModify id=1 lrn=2025440001
     409 wrong_status 13
CCCC /versions/1
     200 modified
AAAA,BBBB,CCCC /downloads/10
     200 {"downloads":[{"action":"modify","attempt":2,"cic":null,"id":1,"lrn":"2025440001","minute":300,"subject":"2025331234"}]}
