# The carrier codes of a donation and of an assignment stand beside their routing numbers, wherever these are told.
after opening

let coded first cic=0288 subject=2025337002
let block held cic=5001 due=0 id=2 since=0
let create-of-coded create-of-first cic=0288 subject=2025337002
let create-of-this create-of-block cic=5001 id=2 minute=0
let row-of-coded row-of-first cic=0288 subject=2025337002
let row-of-this row-of-block cic=5001

BBBB /blocks/donate donation cic=0288 used=002
     200 block=2025337 ids=1
AAAA,BBBB /downloads/acknowledge attempt=1 id=1
     200 coded
CCCC /downloads/10
     200 downloads=create-of-coded
CCCC /downloads/acknowledge attempt=1 id=1
     200 coded status=active
NPAC /blocks/assign assignment cic=5001
     200 block
AAAA,BBBB /downloads/acknowledge attempt=1 id=2
     200 block
CCCC /downloads/10
     200 downloads=create-of-this
CCCC /downloads/acknowledge attempt=1 id=2
     200 block status=active
AAAA /query uri=tel:+12025337002
     200 uri=tel:+12025337002;cic=+10288;npdi;rn=+12025330000
AAAA /query uri=tel:+12025337003
     200 uri=tel:+12025337003;cic=+15001;npdi;rn=+12025550000
AAAA /query uri=tel:+12025337003;cic=+10333
     200 uri=tel:+12025337003;cic=+10333;npdi;rn=+12025550000
NPAC /carriers spid=DDDD
     200 rows=row-of-this,row-of-coded spid=DDDD
CCCC /blocks/release block=2025337
     200 block attempt=2
DDDD /downloads/10
     200 {"downloads":[{"action":"delete","attempt":2,"cic":null,"id":2,"lrn":null,"minute":0,"subject":"2025337"}]}
