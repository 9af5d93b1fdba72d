# A number of a block that is held is to be ported from the holder: the block is not given back until that has an end.
after held-block

let away port due=60 id=4 old=CCCC phase=initial since=24 subject=2025337003

NPAC /clock minute=24
     200 now=24
AAAA /subscriptionVersionNewSP-Create create due=60 old=CCCC tn=2025337003
     200 away
NPAC /clock minute=25
     200 now=25
CCCC,NPAC /blocks/release block=2025337
     409 open_ports 23
AAAA /subscriptionVersionCancel id=4
     200 away phase=null since=25 status=canceled
CCCC /blocks/release block=2025337
     200 held attempt=2 since=25
