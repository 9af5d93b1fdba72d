# The number goes on to a third carrier. Calls go by the earlier version until the last carrier has
# acknowledged, which registered while the broadcast was open.
after first-port

let onward port cic=0288 id=2 lrn=2025550000 new=CCCC old=AAAA

NPAC /carriers spid=CCCC
     200 {"rows":[{"cic":null,"lrn":"2025440000","subject":"2025331234"}],"spid":"CCCC"}
CCCC /lrns lrn=2025550000
     200 lrn=2025550000 spid=CCCC
CCCC /subscriptionVersionNewSP-Create cic=0288 due=0 lrn=2025550000 new=CCCC old=AAAA tn=2025331234
     200 onward phase=initial
AAAA /subscriptionVersionOldSP-Create concur new=CCCC old=AAAA
     200 onward
CCCC /subscriptionVersionActivate id=2
     200 onward attempt=1 status=sending
NPAC /carriers spid=DDDD
     200 {"rows":[{"cic":null,"lrn":"2025440000","subject":"2025331234"}],"spid":"DDDD"}
NPAC /query uri=tel:+12025331234
     200 uri=tel:+12025331234;npdi;rn=+12025440000
AAAA /downloads/acknowledge attempt=1 id=2
     200 onward attempt=1 status=sending
BBBB /downloads/acknowledge attempt=1 id=2
     200 onward attempt=1 status=sending
CCCC /downloads/acknowledge attempt=1 id=2
     200 onward attempt=1 status=sending
AAAA /query uri=tel:+12025331234
     200 uri=tel:+12025331234;npdi;rn=+12025440000
DDDD /downloads/acknowledge attempt=1 id=2
     200 onward attempt=1 status=active
AAAA /query uri=tel:+12025331234
     200 uri=tel:+12025331234;cic=+10288;npdi;rn=+12025550000
NPAC /carriers spid=EEEE
     200 {"rows":[{"cic":"0288","lrn":"2025550000","subject":"2025331234"}],"spid":"EEEE"}
