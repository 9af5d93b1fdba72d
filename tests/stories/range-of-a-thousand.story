# A row of a file may name a thousand numbers in a row: each gets a line of the report, with the row's number.
after opening

let header "caller,action,subject,old,new,due,lrn,cic,flag\n"
let report "row,subject,result,id\n"
let create "AAAA,subscriptionVersionNewSP-Create,"
let fields ",BBBB,AAAA,100,2025440000,,\n"

bulk header create "2025330001-2025330999" fields create "2025331000-2025331999" fields
     writes report
for 1 to 9
     writes "1,202533000#,ok,#\n"
end
for 10 to 99
     writes "1,20253300#,ok,#\n"
end
for 100 to 999
     writes "1,2025330#,ok,#\n"
end
for 000 to 999
     writes "2,2025331#,ok,1#\n"
end

# one more is too many
bulk header create "2025332000-2025333000" fields
     writes report "1,,bad_row,\n"
CCCC /versions/1999
     200 port due=100 id=1999 phase=initial subject=2025331999
CCCC /versions/2000
     404 not_found 10
