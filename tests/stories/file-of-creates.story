# A file of commands: two carriers create the number, and the second comes too late; the old provider concurs with the first.
# A file with the header only has a report with the header only, and one without a header is no file of commands.
after opening

let header "caller,action,subject,old,new,due,lrn,cic,flag\n"
let report "row,subject,result,id\n"
let first-create "AAAA,subscriptionVersionNewSP-Create,2025331234,BBBB,AAAA,100,2025440000,,\n"
let other-create "CCCC,subscriptionVersionNewSP-Create,2025331234,BBBB,CCCC,100,2025550000,,\n"
let concurrence "BBBB,subscriptionVersionOldSP-Create,2025331234,BBBB,AAAA,100,,,yes\n"

bulk header
     writes report
bulk ""
ends bad_header
bulk "caller,action,subject,old,new,due,lrn,cic\n"
ends bad_header
bulk first-create other-create concurrence
ends bad_header
CCCC /numbers/2025331234
     200 in_force=null open=null

bulk header first-create other-create concurrence
     writes report "1,2025331234,ok,1\n2,2025331234,busy,\n3,2025331234,ok,1\n"
CCCC /versions/1
     200 port due=100
bulk header first-create other-create concurrence
     writes report "1,2025331234,busy,\n2,2025331234,busy,\n3,2025331234,busy,\n"
export
     writes "subject,lrn,cic\n"

NPAC /clock minute=100
     200 now=100
AAAA /subscriptionVersionActivate id=1
     200 port attempt=1 due=100 since=100 status=sending
