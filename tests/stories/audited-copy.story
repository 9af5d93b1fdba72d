# A carrier's copy is audited: it has another routing of the number in force, and a number that is not in force.
after active-port

let header "subject,finding\n"
let columns "subject,lrn,cic\n"

audit CCCC columns "2025331234,2025550000,\n2025339999,2025330000,\n"
     writes header "2025331234,different\n2025339999,extra\n"
audit CCCC columns "2025331234,2025440000,\n"
     writes header
audit CCCC columns
     writes header "2025331234,missing\n"
export
     writes columns "2025331234,2025440000,\n"

# a carrier that is not registered, judged before the file; a subject twice; and no header
audit DDDD ""
ends unknown_carrier
audit CCCC columns "2025331234,2025440000,\n2025331234,2025440000,\n"
ends bad_file
audit CCCC ""
ends bad_header

# a modify waits for CCCC, and no longer when it has acknowledged
AAAA /subscriptionVersionModify id=1 lrn=2025440000 cic=0288
     200 active attempt=2 status=sending
AAAA,BBBB /downloads/acknowledge attempt=2 id=1
     200 active attempt=2 status=sending
audit CCCC columns "2025339999,2025330000,\n"
     writes header "2025331234,waiting\n2025339999,extra\n"
audit AAAA columns "2025331234,2025440000,\n"
     writes header
CCCC /downloads/acknowledge attempt=2 id=1
     200 active attempt=2 cic=0288
audit CCCC columns "2025331234,2025440000,0288\n"
     writes header
export
     writes columns "2025331234,2025440000,0288\n"
