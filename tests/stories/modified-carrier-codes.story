# A modify puts the routing as a whole: with a carrier's code, with none, and once more the same.
after active-port

AAAA /subscriptionVersionModify cic=0288 id=1 lrn=2025440000
     200 active attempt=2 status=sending
CCCC /downloads/10
     200 {"downloads":[{"action":"modify","attempt":2,"cic":"0288","id":1,"lrn":"2025440000","minute":0,"subject":"2025331234"}]}
CCCC /query uri=tel:+12025331234
     200 uri=tel:+12025331234;npdi;rn=+12025440000
AAAA,BBBB /downloads/acknowledge attempt=2 id=1
     200 active attempt=2 status=sending
CCCC /downloads/acknowledge attempt=2 id=1
     200 active attempt=2 cic=0288
CCCC /query uri=tel:+12025331234
     200 uri=tel:+12025331234;cic=+10288;npdi;rn=+12025440000

AAAA /subscriptionVersionModify id=1 lrn=2025440000
     200 active attempt=3 cic=0288 status=sending
CCCC /downloads/10
     200 {"downloads":[{"action":"modify","attempt":3,"cic":null,"id":1,"lrn":"2025440000","minute":0,"subject":"2025331234"}]}
AAAA,BBBB /downloads/acknowledge attempt=3 id=1
     200 active attempt=3 cic=0288 status=sending
CCCC /downloads/acknowledge attempt=3 id=1
     200 active attempt=3
CCCC /query uri=tel:+12025331234
     200 uri=tel:+12025331234;npdi;rn=+12025440000

AAAA /subscriptionVersionModify id=1 lrn=2025440000
     200 active attempt=4 status=sending
AAAA,BBBB /downloads/acknowledge attempt=4 id=1
     200 active attempt=4 status=sending
CCCC /downloads/acknowledge attempt=4 id=1
     200 active attempt=4
