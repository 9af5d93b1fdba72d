# Bodies of the three calls on blocks are refused by their form, before anything else is asked.
after opening

# a donation
BBBB /blocks/donate {}
     400 bad_request 41
BBBB /blocks/donate block=2025337 lrn=2025330000
     400 bad_request 41
BBBB /blocks/donate block=2025337 used=001
     400 bad_request 41
BBBB /blocks/donate lrn=2025330000 used=001
     400 bad_request 41
BBBB /blocks/donate donation holder=CCCC
     400 bad_request 41
BBBB /blocks/donate donation ids=1,2
     400 bad_request 41
BBBB /blocks/donate donation used=null
     400 bad_request 41
BBBB /blocks/donate {"block":"2025337","lrn":"2025330000","used":"001"}
     400 bad_request 41
BBBB /blocks/donate {"block":"2025337","lrn":"2025330000","used":{"001":"002"}}
     400 bad_request 41
BBBB /blocks/donate donation used={}
     400 bad_request 41
BBBB /blocks/donate donation used=[1]
     400 bad_request 41
BBBB /blocks/donate donation used=["001",2]
     400 bad_request 41
BBBB /blocks/donate donation used=["001",null]
     400 bad_request 41
BBBB /blocks/donate donation used=[["001"]]
     400 bad_request 41
BBBB /blocks/donate donation used=["001",]
     400 bad_request 41
BBBB /blocks/donate donation used=["001"
     400 bad_request 41
BBBB /blocks/donate donation used=01
     400 bad_request 41
BBBB /blocks/donate donation used=001,0002
     400 bad_request 41
BBBB /blocks/donate donation used=00a
     400 bad_request 41
BBBB /blocks/donate donation used=00a,001
     400 bad_request 41
BBBB /blocks/donate donation used=+01
     400 bad_request 41
BBBB /blocks/donate donation used=[""]
     400 bad_request 41
BBBB /blocks/donate donation block=202533
     400 bad_request 41
BBBB /blocks/donate donation block=20253370
     400 bad_request 41
BBBB /blocks/donate donation block=2021337
     400 bad_request 41
BBBB /blocks/donate {"block":2025337,"lrn":"2025330000","used":[]}
     400 bad_request 41
BBBB /blocks/donate donation block=null
     400 bad_request 41
BBBB /blocks/donate donation lrn=202533000
     400 bad_request 41
BBBB /blocks/donate donation lrn=null
     400 bad_request 41
BBBB /blocks/donate donation cic=288
     400 bad_request 41
BBBB /blocks/donate donation cic=["0288"]
     400 bad_request 41
BBBB /blocks/donate {"block":"2025337","cic":288,"lrn":"2025330000","used":[]}
     400 bad_request 41

# an assignment
NPAC /blocks/assign {}
     400 bad_request 41
NPAC /blocks/assign block=2025337 lrn=2025550000
     400 bad_request 41
NPAC /blocks/assign block=2025337 holder=CCCC
     400 bad_request 41
NPAC /blocks/assign holder=CCCC lrn=2025550000
     400 bad_request 41
NPAC /blocks/assign assignment used=001
     400 bad_request 41
NPAC /blocks/assign assignment holder=cccc
     400 bad_request 41
NPAC /blocks/assign assignment holder=CC
     400 bad_request 41
NPAC /blocks/assign assignment holder=null
     400 bad_request 41
NPAC /blocks/assign assignment block=2025337003
     400 bad_request 41
NPAC /blocks/assign assignment cic=02880
     400 bad_request 41
NPAC /blocks/assign assignment lrn=null
     400 bad_request 41

# a release
CCCC /blocks/release {}
     400 bad_request 41
CCCC /blocks/release block=null
     400 bad_request 41
CCCC /blocks/release block=2025337 id=3
     400 bad_request 41
CCCC /blocks/release block=2025337 lrn=2025550000
     400 bad_request 41
CCCC /blocks/release {"block":2025337}
     400 bad_request 41
CCCC /blocks/release block=["2025337"]
     400 bad_request 41
CCCC /blocks/release ["2025337"]
     400 bad_request 41
CCCC /blocks/release id=3
     400 bad_request 41

# the paths are there by POST alone, and no others beside them
BBBB,NPAC,ZZZZ /blocks/donate
     405 bad_method 43
NPAC /blocks/assign
     405 bad_method 43
CCCC /blocks/release
     405 bad_method 43
BBBB /blocks
     404 no_path 42
BBBB /blocks/ {}
     404 no_path 42
BBBB /blocks/2025337
     404 no_path 42
BBBB /blocks/donate/ donation
     404 no_path 42
BBBB /blocks/donate?used=001 donation
     404 no_path 42
BBBB /blocks/Donate donation
     404 no_path 42

# nothing was done; null counts as absent for the carrier code, and the last of equal keys counts
BBBB /blocks/donate donation cic=null used=[]
     200 block=2025337 ids=[]
BBBB /blocks/donate {"used":["000","x"],"block":"2025338","used":["\u0030\u00301"],"lrn":"2025330000"}
     200 block=2025338 ids=1
CCCC /versions/1
     200 first subject=2025338001
NPAC /blocks/assign assignment cic=null
     200 held due=0 id=2 since=0

# blanks, escapes and another order of the keys say the same
BBBB /blocks/donate {"used": ["999", "00\u0030" ], "lrn":"2025330000","cic":"0288" ,"block":"2025339"}
     200 block=2025339 ids=3,4
CCCC /versions/3
     200 first cic=0288 id=3 subject=2025339000
CCCC /versions/4
     200 first cic=0288 id=4 subject=2025339999
BBBB /blocks/donate donation block=2025336 used=[]
     200 block=2025336 ids=[]
NPAC /blocks/assign {"holder":"CCCC","lrn":"2025550000","cic":"0288","block":"2025336"}
     200 held cic=0288 due=0 id=5 since=0 subject=2025336
