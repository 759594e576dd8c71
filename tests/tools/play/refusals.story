102 events. Below each, the unit's answer and the packets that it writes for the recorder.
Distances are in cm, speeds in cm/s; AD is the ETCS mode automatic driving.

line 126: length 20000
    refused by 3 (power): there is no power: only power on is taken

line 127: load Day B1
    refused by 3 (power): there is no power: only power on is taken

line 128: traction 0
    refused by 3 (power): there is no power: only power on is taken

line 129: slippery none
    refused by 3 (power): there is no power: only power on is taken

line 130: slippery on Depot from 5 to 4
    refused by 21 (event): the start of row 1, 5, is beyond its end, 4

line 131: power on
    CO (configuration), AD not requested
        CO: the driver may drive by hand; the unit waits to be configured
    4400000000000000FFFFFF0000FFFFFFFF0801
        68 state CO: lacking: 0 ETCS conditions, 1 no emergency brake, 2 End of Journey not reached, 3 last point not passed, 4 profiles to the target, 5 no inconsistency, 6 located in the journey, 8 data valid
        [NID_C 0 NID_SP 0 offset undefined speed 0 NID_OPERATIONAL FFFFFFFF]

line 132: power on
    refused by 4 (power): power is on already, the state is CO

line 133: engage
    refused by 6 (state): an engage press is taken in RE alone, the state is CO

line 134: bytes FF
    refused by 1 (event): no kind of event has the number 255

line 135: bytes 0B
    refused by 9 (journey): the journey is empty
    4100000000000000FFFFFF0000FFFFFFFF040040000000000000000001
        65 profiles turned down: NID_C 1024, NID_ATOTS 16384, date 0, seconds 0, counter 0, status 1
        [NID_C 0 NID_SP 0 offset undefined speed 0 NID_OPERATIONAL FFFFFFFF]

line 136: bytes 0B00
    refused by 1 (event): its length is 2; of kind 11 it must be 1

line 137: bytes 09 0011
    refused by 1 (event): its length is 3; of kind 9 it must be 13

line 138: length 0
    refused by 2 (event): the train length is 0; it must be 1 to 100,000

line 139: length 100001
    refused by 2 (event): the train length is 100,001; it must be 1 to 100,000

line 140: bytes 05 20
    refused by 2 (event): the reports' byte is 32; it must be 0 to 31

line 141: bytes 06 02
    refused by 2 (event): the mode is 2; it must be 0 to 1

line 142: bytes 07 03
    refused by 2 (event): the lever is 3; it must be 0 to 2

line 143: bytes 09 0400 00000001 00000000 0000
    refused by 2 (event): NID_C is 1,024; it must be 0 to 1,023

line 144: bytes 09 0011 00000001 01000000 0000
    refused by 2 (event): the offset is 16,777,216; it must be 0 to 16,777,215

line 145: bytes 0E 14 00 00 00 00
    refused by 1 (event): its length is 6; of kind 14 it must be 7

line 146: traction 101
    refused by 2 (event): the request is 101; it must be -100 to 100

line 147: traction -101
    refused by 2 (event): the request is -101; it must be -100 to 100

line 148: bytes 0F
    refused by 1 (event): its length is 1; of kind 15 it must be at least 2

line 149: bytes 0F 01
    refused by 1 (event): its length is 2; of kind 15 with a count of 1 it must be 18

line 150: bytes 0F 00 00
    refused by 1 (event): its length is 3; of kind 15 with a count of 0 it must be 2

line 151: bytes 0F 20 0011 00000001 01 00 00000000 00000001
    refused by 1 (event): its length is 18; of kind 15 with a count of 32 it must be 514

line 152: slippery on WideCountry from 0 to 1
    refused by 2 (event): NID_C of row 1 is 1,024; it must be 0 to 1,023

line 153: slippery on Depot from 0 to 1 on Depot from 0 to 16777216
    refused by 2 (event): the end of row 2 is 16,777,216; it must be 0 to 16,777,215

line 154: slippery on Depot from 5 to 4 on Depot from 16777216 to 0
    refused by 2 (event): the start of row 2 is 16,777,216; it must be 0 to 16,777,215

line 155: slippery on Depot from 0 to 0 on Depot from 16777215 to 16777215 on Depot from 5 to 4
    refused by 21 (event): the start of row 3, 5, is beyond its end, 4

line 156: slippery on Valley from 1 to 0 category 255 range 255
    refused by 21 (event): the start of row 1, 1, is beyond its end, 0

line 158: load Day B1
    refused by 7 (book): record WideCountry: NID_C is 1,024; it must be 0 to 1,023
    4100000000000000FFFFFF0000FFFFFFFF040040000000000000000001
        65 profiles turned down: NID_C 1024, NID_ATOTS 16384, date 0, seconds 0, counter 0, status 1
        [NID_C 0 NID_SP 0 offset undefined speed 0 NID_OPERATIONAL FFFFFFFF]

line 159: load Day B2
    refused by 7 (book): record NoLength: the length is 0; it must be 1 to 16,777,214
    4100000000000000FFFFFF0000FFFFFFFF040040000000000000000001
        65 profiles turned down: NID_C 1024, NID_ATOTS 16384, date 0, seconds 0, counter 0, status 1
        [NID_C 0 NID_SP 0 offset undefined speed 0 NID_OPERATIONAL FFFFFFFF]

line 160: load Day B3
    refused by 7 (book): record TooLong: the length is 16,777,215; it must be 1 to 16,777,214
    4100000000000000FFFFFF0000FFFFFFFF040040000000000000000001
        65 profiles turned down: NID_C 1024, NID_ATOTS 16384, date 0, seconds 0, counter 0, status 1
        [NID_C 0 NID_SP 0 offset undefined speed 0 NID_OPERATIONAL FFFFFFFF]

line 161: load Day B4
    refused by 7 (book): record FarPoint: the place of its point 1 is 11; it must be 0 to 10
    4100000000000000FFFFFF0000FFFFFFFF040040000000000000000001
        65 profiles turned down: NID_C 1024, NID_ATOTS 16384, date 0, seconds 0, counter 0, status 1
        [NID_C 0 NID_SP 0 offset undefined speed 0 NID_OPERATIONAL FFFFFFFF]

line 162: load Day B5
    refused by 7 (book): record WideReach: R of its point 1 is 10,001; it must be 0 to 10,000
    4100000000000000FFFFFF0000FFFFFFFF040040000000000000000001
        65 profiles turned down: NID_C 1024, NID_ATOTS 16384, date 0, seconds 0, counter 0, status 1
        [NID_C 0 NID_SP 0 offset undefined speed 0 NID_OPERATIONAL FFFFFFFF]

line 163: load Day B6
    refused by 7 (book): record NoName: NID_TP of its point 1 is FFFFFFFF hexadecimal; it must be below FFFFFFFF hexadecimal
    4100000000000000FFFFFF0000FFFFFFFF040040000000000000000001
        65 profiles turned down: NID_C 1024, NID_ATOTS 16384, date 0, seconds 0, counter 0, status 1
        [NID_C 0 NID_SP 0 offset undefined speed 0 NID_OPERATIONAL FFFFFFFF]

line 164: load Day B7
    refused by 7 (book): record FarZone: the end of its zone 1 is 11; it must be 3 to 10
    4100000000000000FFFFFF0000FFFFFFFF040040000000000000000001
        65 profiles turned down: NID_C 1024, NID_ATOTS 16384, date 0, seconds 0, counter 0, status 1
        [NID_C 0 NID_SP 0 offset undefined speed 0 NID_OPERATIONAL FFFFFFFF]

line 165: load Day B8
    refused by 7 (book): record BackZone: the end of its zone 1 is 4; it must be 5 to 10
    4100000000000000FFFFFF0000FFFFFFFF040040000000000000000001
        65 profiles turned down: NID_C 1024, NID_ATOTS 16384, date 0, seconds 0, counter 0, status 1
        [NID_C 0 NID_SP 0 offset undefined speed 0 NID_OPERATIONAL FFFFFFFF]

line 166: load Day B9
    refused by 7 (book): record LateZone: the start of its zone 1 is 11; it must be 0 to 10
    4100000000000000FFFFFF0000FFFFFFFF040040000000000000000001
        65 profiles turned down: NID_C 1024, NID_ATOTS 16384, date 0, seconds 0, counter 0, status 1
        [NID_C 0 NID_SP 0 offset undefined speed 0 NID_OPERATIONAL FFFFFFFF]

line 167: load Day B10
    refused by 7 (book): record FiveZones: the count of zones is 5; it must be 1 to 4
    4100000000000000FFFFFF0000FFFFFFFF040040000000000000000001
        65 profiles turned down: NID_C 1024, NID_ATOTS 16384, date 0, seconds 0, counter 0, status 1
        [NID_C 0 NID_SP 0 offset undefined speed 0 NID_OPERATIONAL FFFFFFFF]

line 168: load Day Twice
    refused by 8 (book): the segment of record Depot stands twice in the book
    4100000000000000FFFFFF0000FFFFFFFF040040000000000000000001
        65 profiles turned down: NID_C 1024, NID_ATOTS 16384, date 0, seconds 0, counter 0, status 1
        [NID_C 0 NID_SP 0 offset undefined speed 0 NID_OPERATIONAL FFFFFFFF]

line 169: load Day Again
    refused by 8 (book): the segment of record Depot stands twice in the book, also as record DepotAgain
    4100000000000000FFFFFF0000FFFFFFFF040040000000000000000001
        65 profiles turned down: NID_C 1024, NID_ATOTS 16384, date 0, seconds 0, counter 0, status 1
        [NID_C 0 NID_SP 0 offset undefined speed 0 NID_OPERATIONAL FFFFFFFF]

line 170: load Day Same
    refused by 8 (book): record Doubles has NID_TP 1 twice
    4100000000000000FFFFFF0000FFFFFFFF040040000000000000000001
        65 profiles turned down: NID_C 1024, NID_ATOTS 16384, date 0, seconds 0, counter 0, status 1
        [NID_C 0 NID_SP 0 offset undefined speed 0 NID_OPERATIONAL FFFFFFFF]

line 171: load LateDate Line
    refused by 9 (journey): the date is 32,768; it must be 0 to 32,767
    4100000000000000FFFFFF0000FFFFFFFF040040000000000000000001
        65 profiles turned down: NID_C 1024, NID_ATOTS 16384, date 0, seconds 0, counter 0, status 1
        [NID_C 0 NID_SP 0 offset undefined speed 0 NID_OPERATIONAL FFFFFFFF]

line 172: load WideSession Line
    refused by 9 (journey): NID_ATOTS is 16,384; it must be 0 to 16,383
    4100000000000000FFFFFF0000FFFFFFFF040040000000000000000001
        65 profiles turned down: NID_C 1024, NID_ATOTS 16384, date 0, seconds 0, counter 0, status 1
        [NID_C 0 NID_SP 0 offset undefined speed 0 NID_OPERATIONAL FFFFFFFF]

line 173: load Nowhere Line
    refused by 9 (journey): the count of segments is 0; it must be 1 to 40
    4100000000000000FFFFFF0000FFFFFFFF040040000000000000000001
        65 profiles turned down: NID_C 1024, NID_ATOTS 16384, date 0, seconds 0, counter 0, status 1
        [NID_C 0 NID_SP 0 offset undefined speed 0 NID_OPERATIONAL FFFFFFFF]

line 174: load Pointless Line
    refused by 9 (journey): the count of points is 0; it must be 1 to 64
    4100000000000000FFFFFF0000FFFFFFFF040040000000000000000001
        65 profiles turned down: NID_C 1024, NID_ATOTS 16384, date 0, seconds 0, counter 0, status 1
        [NID_C 0 NID_SP 0 offset undefined speed 0 NID_OPERATIONAL FFFFFFFF]

line 175: load Abroad Line
    refused by 9 (journey): NID_C of segment WideCountry is 1,024; it must be 0 to 1,023
    4100000000000000FFFFFF0000FFFFFFFF040040000000000000000001
        65 profiles turned down: NID_C 1024, NID_ATOTS 16384, date 0, seconds 0, counter 0, status 1
        [NID_C 0 NID_SP 0 offset undefined speed 0 NID_OPERATIONAL FFFFFFFF]

line 176: load Data Line
    refused by 9 (journey): point Shed: the stopping data is 128; it must be 0 to 127
    4100000000000000FFFFFF0000FFFFFFFF040040000000000000000001
        65 profiles turned down: NID_C 1024, NID_ATOTS 16384, date 0, seconds 0, counter 0, status 1
        [NID_C 0 NID_SP 0 offset undefined speed 0 NID_OPERATIONAL FFFFFFFF]

line 177: load Nameless Line
    refused by 9 (journey): point Unnamed: NID_TP is FFFFFFFF hexadecimal; it must be below FFFFFFFF hexadecimal
    4100000000000000FFFFFF0000FFFFFFFF040040000000000000000001
        65 profiles turned down: NID_C 1024, NID_ATOTS 16384, date 0, seconds 0, counter 0, status 1
        [NID_C 0 NID_SP 0 offset undefined speed 0 NID_OPERATIONAL FFFFFFFF]

line 178: load Circle Line
    refused by 10 (journey): the journey goes through segment Depot twice
    4100000000000000FFFFFF0000FFFFFFFF040040000000000000000001
        65 profiles turned down: NID_C 1024, NID_ATOTS 16384, date 0, seconds 0, counter 0, status 1
        [NID_C 0 NID_SP 0 offset undefined speed 0 NID_OPERATIONAL FFFFFFFF]

line 179: load Alias Line
    refused by 10 (journey): the journey goes through segment Depot twice, also as segment DepotAgain
    4100000000000000FFFFFF0000FFFFFFFF040040000000000000000001
        65 profiles turned down: NID_C 1024, NID_ATOTS 16384, date 0, seconds 0, counter 0, status 1
        [NID_C 0 NID_SP 0 offset undefined speed 0 NID_OPERATIONAL FFFFFFFF]

line 180: load ShedTwice Line
    refused by 11 (journey): NID_TP 7001 stands twice in the journey: point Shed
    4100000000000000FFFFFF0000FFFFFFFF040040000000000000000001
        65 profiles turned down: NID_C 1024, NID_ATOTS 16384, date 0, seconds 0, counter 0, status 1
        [NID_C 0 NID_SP 0 offset undefined speed 0 NID_OPERATIONAL FFFFFFFF]

line 181: load MillTwin Line
    refused by 11 (journey): NID_TP 7003 stands twice in the journey: point Mill, also as point Twin
    4100000000000000FFFFFF0000FFFFFFFF040040000000000000000001
        65 profiles turned down: NID_C 1024, NID_ATOTS 16384, date 0, seconds 0, counter 0, status 1
        [NID_C 0 NID_SP 0 offset undefined speed 0 NID_OPERATIONAL FFFFFFFF]

line 182: load Endless Line
    refused by 11 (journey): no point is the End of Journey
    4100000000000000FFFFFF0000FFFFFFFF040040000000000000000001
        65 profiles turned down: NID_C 1024, NID_ATOTS 16384, date 0, seconds 0, counter 0, status 1
        [NID_C 0 NID_SP 0 offset undefined speed 0 NID_OPERATIONAL FFFFFFFF]

line 183: load TwoEnds Line
    refused by 11 (journey): 2 points are the End of Journey: point Shed, point Mill
    4100000000000000FFFFFF0000FFFFFFFF040040000000000000000001
        65 profiles turned down: NID_C 1024, NID_ATOTS 16384, date 0, seconds 0, counter 0, status 1
        [NID_C 0 NID_SP 0 offset undefined speed 0 NID_OPERATIONAL FFFFFFFF]

line 184: load OtherBook Short
    refused by 11 (journey): segment Depot is in the book without point Shed
    4100000000000000FFFFFF0000FFFFFFFF040040000000000000000001
        65 profiles turned down: NID_C 1024, NID_ATOTS 16384, date 0, seconds 0, counter 0, status 1
        [NID_C 0 NID_SP 0 offset undefined speed 0 NID_OPERATIONAL FFFFFFFF]

line 185: load Falls Line
    refused by 12 (journey): the segment index falls, from 1 of point Mill to 0 of point Shed
    4100000000000000FFFFFF0000FFFFFFFF040040000000000000000001
        65 profiles turned down: NID_C 1024, NID_ATOTS 16384, date 0, seconds 0, counter 0, status 1
        [NID_C 0 NID_SP 0 offset undefined speed 0 NID_OPERATIONAL FFFFFFFF]

line 186: load Backward Line
    refused by 12 (journey): point Shed, 60,000 from the journey's start, is not behind point Bridge, at 90,000
    4100000000000000FFFFFF0000FFFFFFFF040040000000000000000001
        65 profiles turned down: NID_C 1024, NID_ATOTS 16384, date 0, seconds 0, counter 0, status 1
        [NID_C 0 NID_SP 0 offset undefined speed 0 NID_OPERATIONAL FFFFFFFF]

line 187: load Level Line
    refused by 12 (journey): point Wall, 140,000 from the journey's start, is not behind point Gate, at 140,000
    4100000000000000FFFFFF0000FFFFFFFF040040000000000000000001
        65 profiles turned down: NID_C 1024, NID_ATOTS 16384, date 0, seconds 0, counter 0, status 1
        [NID_C 0 NID_SP 0 offset undefined speed 0 NID_OPERATIONAL FFFFFFFF]

line 190: skip Shed
    refused by 14 (skip): no journey is loaded

line 191: load Day Line
    CO, AD not requested; targeted: Shed
    4100000000000000FFFFFF0000FFFFFFFF040040002328000054600100
        65 journey taken: NID_C 1024, NID_ATOTS 16384, date 9000, seconds 21600, counter 1, status 0
        [NID_C 0 NID_SP 0 offset undefined speed 0 NID_OPERATIONAL FFFFFFFF]
    4400000000000000FFFFFF0000FFFFFFFF09C1
        68 state CO: lacking: 0 ETCS conditions, 1 no emergency brake, 5 no inconsistency, 6 located in the journey, 8 data valid
        [NID_C 0 NID_SP 0 offset undefined speed 0 NID_OPERATIONAL FFFFFFFF]

line 192: load Falls Line
    refused by 12 (journey): the segment index falls, from 1 of point Mill to 0 of point Shed
    4100000000000000FFFFFF0000FFFFFFFF040040000000000000000001
        65 profiles turned down: NID_C 1024, NID_ATOTS 16384, date 0, seconds 0, counter 0, status 1
        [NID_C 0 NID_SP 0 offset undefined speed 0 NID_OPERATIONAL FFFFFFFF]

line 193: configured
    NA (not available), AD not requested; targeted: Shed
        NA: the driver may drive by hand; the unit waits for the conditions that are lacking
    4400000000000000FFFFFF0000FFFFFFFF09C2
        68 state NA: lacking: 0 ETCS conditions, 1 no emergency brake, 5 no inconsistency, 6 located in the journey, 8 data valid
        [NID_C 0 NID_SP 0 offset undefined speed 0 NID_OPERATIONAL FFFFFFFF]

line 194: configured
    refused by 6 (state): configured is taken in CO alone, the state is NA

line 195: position Depot 100001 speed 0
    refused by 13 (position): the offset 100,001 is beyond the length of segment Depot, 100,000

line 196: position Depot 59850 speed 0
    NA, AD not requested; reached: Shed
    3E0011000001F40000E9CA0000FFFFFFFF001100001B590900
        62 Shed stopped: NID_C 17, NID_TP 7001, Q_EOJ_REACHED 1 (End of Journey ahead), alignment front, stopping data 0
        [NID_C 17 NID_SP 500 offset 59850 speed 0 NID_OPERATIONAL FFFFFFFF]
    440011000001F40000E9CA0000FFFFFFFF0DC2
        68 state NA: lacking: 0 ETCS conditions, 1 no emergency brake, 5 no inconsistency, 8 data valid
        [NID_C 17 NID_SP 500 offset 59850 speed 0 NID_OPERATIONAL FFFFFFFF]

line 197: load Backward Line
    refused by 12 (journey): point Shed, 60,000 from the journey's start, is not behind point Bridge, at 90,000
    410011000001F40000E9CA0000FFFFFFFF001140000000000000000001
        65 profiles turned down: NID_C 17, NID_ATOTS 16384, date 0, seconds 0, counter 0, status 1
        [NID_C 17 NID_SP 500 offset 59850 speed 0 NID_OPERATIONAL FFFFFFFF]

line 198: skip Bridge
    refused by 14 (skip): point Bridge is a passing point, no stop

line 199: skip Gate
    refused by 14 (skip): the journey has no such point

line 200: skip Shed
    refused by 15 (skip): point Shed is reached

line 201: revoke Mill
    refused by 15 (skip): the driver does not skip point Mill; that trackside skips it counts for nothing here

line 202: skip Mill
    NA, AD not requested; reached: Shed
    3E0011000001F40000E9CA0000FFFFFFFF001100001B5B2900
        62 Mill skipped by the driver: NID_C 17, NID_TP 7003, Q_EOJ_REACHED 1 (End of Journey ahead), alignment front, stopping data 0
        [NID_C 17 NID_SP 500 offset 59850 speed 0 NID_OPERATIONAL FFFFFFFF]

line 203: skip Mill
    refused by 15 (skip): the driver skips point Mill already

line 204: revoke Mill
    NA, AD not requested; reached: Shed
    3E0011000001F40000E9CA0000FFFFFFFF001100001B5B3100
        62 Mill driver skip revoked: NID_C 17, NID_TP 7003, Q_EOJ_REACHED 1 (End of Journey ahead), alignment front, stopping data 0
        [NID_C 17 NID_SP 500 offset 59850 speed 0 NID_OPERATIONAL FFFFFFFF]

line 205: position Depot 60500 speed 100
    NA, AD not requested; passed: Shed; targeted: Bridge
    3E0011000001F40000EC540064FFFFFFFF001100001B591100
        62 Shed departed: NID_C 17, NID_TP 7001, Q_EOJ_REACHED 1 (End of Journey ahead), alignment front, stopping data 0
        [NID_C 17 NID_SP 500 offset 60500 speed 100 NID_OPERATIONAL FFFFFFFF]
    440011000001F40000EC540064FFFFFFFF0DC2
        68 state NA: lacking: 0 ETCS conditions, 1 no emergency brake, 5 no inconsistency, 8 data valid
        [NID_C 17 NID_SP 500 offset 60500 speed 100 NID_OPERATIONAL FFFFFFFF]

line 206: revoke Shed
    refused by 15 (skip): point Shed is passed

line 207: position Harbour 100000 speed 100
    NA, AD not requested; passed: Bridge, Mill, Quay; no point left
    3E0012000001F4000186A00064FFFFFFFF001100001B5A0100
        62 Bridge passed: NID_C 17, NID_TP 7002, Q_EOJ_REACHED 1 (End of Journey ahead), alignment front, stopping data 0
        [NID_C 18 NID_SP 500 offset 100000 speed 100 NID_OPERATIONAL FFFFFFFF]
    3E0012000001F4000186A00064FFFFFFFF001100001B5B0100
        62 Mill passed: NID_C 17, NID_TP 7003, Q_EOJ_REACHED 1 (End of Journey ahead), alignment front, stopping data 0
        [NID_C 18 NID_SP 500 offset 100000 speed 100 NID_OPERATIONAL FFFFFFFF]
    3E0012000001F4000186A00064FFFFFFFF001200001B5E0000
        62 Quay passed: NID_C 18, NID_TP 7006, Q_EOJ_REACHED 0 (End of Journey reached or passed), alignment front, stopping data 0
        [NID_C 18 NID_SP 500 offset 100000 speed 100 NID_OPERATIONAL FFFFFFFF]
    440012000001F4000186A00064FFFFFFFF0D02
        68 state NA: lacking: 0 ETCS conditions, 1 no emergency brake, 2 End of Journey not reached, 3 last point not passed, 5 no inconsistency, 8 data valid
        [NID_C 18 NID_SP 500 offset 100000 speed 100 NID_OPERATIONAL FFFFFFFF]

line 208: load ShedTwice Line
    refused by 11 (journey): NID_TP 7001 stands twice in the journey: point Shed
    410012000001F4000186A00064FFFFFFFF001240000000000000000001
        65 profiles turned down: NID_C 18, NID_ATOTS 16384, date 0, seconds 0, counter 0, status 1
        [NID_C 18 NID_SP 500 offset 100000 speed 100 NID_OPERATIONAL FFFFFFFF]

line 209: position Yard 40000 speed 100
    NA, AD not requested; no point left
    440011000001F700009C400064FFFFFFFF0902
        68 state NA: lacking: 0 ETCS conditions, 1 no emergency brake, 2 End of Journey not reached, 3 last point not passed, 5 no inconsistency, 6 located in the journey, 8 data valid
        [NID_C 17 NID_SP 503 offset 40000 speed 100 NID_OPERATIONAL FFFFFFFF]

line 210: load Level Line
    refused by 12 (journey): point Wall, 140,000 from the journey's start, is not behind point Gate, at 140,000
    410011000001F700009C400064FFFFFFFF040040000000000000000001
        65 profiles turned down: NID_C 1024, NID_ATOTS 16384, date 0, seconds 0, counter 0, status 1
        [NID_C 17 NID_SP 503 offset 40000 speed 100 NID_OPERATIONAL FFFFFFFF]

line 211: position Depot undefined speed 100
    NA, AD not requested; no point left

line 212: load Day Twice
    refused by 8 (book): the segment of record Depot stands twice in the book
    410011000001F400FFFFFF0064FFFFFFFF040040000000000000000001
        65 profiles turned down: NID_C 1024, NID_ATOTS 16384, date 0, seconds 0, counter 0, status 1
        [NID_C 17 NID_SP 500 offset undefined speed 100 NID_OPERATIONAL FFFFFFFF]

line 221: position Depot 59900 speed 0
    NA, AD not requested; no point left
    440011000001F40000E9FC0000FFFFFFFF0D02
        68 state NA: lacking: 0 ETCS conditions, 1 no emergency brake, 2 End of Journey not reached, 3 last point not passed, 5 no inconsistency, 8 data valid
        [NID_C 17 NID_SP 500 offset 59900 speed 0 NID_OPERATIONAL FFFFFFFF]

line 222: load Held Line
    NA, AD not requested; targeted: Shed
    410011000001F40000E9FC0000FFFFFFFF001140002328000054600200
        65 journey taken: NID_C 17, NID_ATOTS 16384, date 9000, seconds 21600, counter 2, status 0
        [NID_C 17 NID_SP 500 offset 59900 speed 0 NID_OPERATIONAL FFFFFFFF]
    440011000001F40000E9FC0000FFFFFFFF0DC2
        68 state NA: lacking: 0 ETCS conditions, 1 no emergency brake, 5 no inconsistency, 8 data valid
        [NID_C 17 NID_SP 500 offset 59900 speed 0 NID_OPERATIONAL FFFFFFFF]

line 223: reports all
    RE (ready), AD requested; targeted: Shed
        RE: the driver may drive by hand, or press engage
    440011000001F40000E9FC0000FFFFFFFF1FF4
        68 state RE: all nine conditions
        [NID_C 17 NID_SP 500 offset 59900 speed 0 NID_OPERATIONAL FFFFFFFF]

line 224: engage
    RE, AD requested; targeted: Shed

line 225: position Depot 59900 speed 0
    RE, AD requested; reached: Shed
    3E0011000001F40000E9FC0000FFFFFFFF001100001B590900
        62 Shed stopped: NID_C 17, NID_TP 7001, Q_EOJ_REACHED 1 (End of Journey ahead), alignment front, stopping data 0
        [NID_C 17 NID_SP 500 offset 59900 speed 0 NID_OPERATIONAL FFFFFFFF]
    3E0011000001F40000E9FC0000FFFFFFFF001100001B591900
        62 Shed held: NID_C 17, NID_TP 7001, Q_EOJ_REACHED 1 (End of Journey ahead), alignment front, stopping data 0
        [NID_C 17 NID_SP 500 offset 59900 speed 0 NID_OPERATIONAL FFFFFFFF]

line 226: engage
    refused by 20 (state): point Shed is reached, and the train is held there

line 227: load Held Twice
    refused by 8 (book): the segment of record Depot stands twice in the book
    410011000001F40000E9FC0000FFFFFFFF001140000000000000000001
        65 profiles turned down: NID_C 17, NID_ATOTS 16384, date 0, seconds 0, counter 0, status 1
        [NID_C 17 NID_SP 500 offset 59900 speed 0 NID_OPERATIONAL FFFFFFFF]

line 228: engage
    refused by 20 (state): point Shed is reached, and the train is held there

line 229: mode AD
    EG (engaged), AD requested; reached: Shed
        EG: the driver may leave driving to the ATO, or take over by the lever at brake or by leaving AD
    440011000001F40000E9FC0000FFFFFFFF1FF5
        68 state EG: all nine conditions
        [NID_C 17 NID_SP 500 offset 59900 speed 0 NID_OPERATIONAL FFFFFFFF]

line 230: engage
    refused by 6 (state): an engage press is taken in RE alone, the state is EG

line 231: load Day Line
    EG, AD requested; targeted: Shed
    410011000001F40000E9FC0000FFFFFFFF001140002328000054600100
        65 journey taken: NID_C 17, NID_ATOTS 16384, date 9000, seconds 21600, counter 1, status 0
        [NID_C 17 NID_SP 500 offset 59900 speed 0 NID_OPERATIONAL FFFFFFFF]
    3E0011000001F40000E9FC0000FFFFFFFF001100001B592100
        62 Shed hold revoked: NID_C 17, NID_TP 7001, Q_EOJ_REACHED 1 (End of Journey ahead), alignment front, stopping data 0
        [NID_C 17 NID_SP 500 offset 59900 speed 0 NID_OPERATIONAL FFFFFFFF]

line 232: fault
    FA (failure), AD not requested; targeted: Shed
        FA: the driver may drive by hand; only power off is left to the unit
    440011000001F40000E9FC0000FFFFFFFF1FF7
        68 state FA: all nine conditions
        [NID_C 17 NID_SP 500 offset 59900 speed 0 NID_OPERATIONAL FFFFFFFF]

line 233: load Day B1
    refused by 5 (power): there is a fault: only power off is taken

line 234: traction 0
    refused by 5 (power): there is a fault: only power off is taken

line 235: slippery none
    refused by 5 (power): there is a fault: only power off is taken

line 236: power on
    refused by 4 (power): power is on already, the state is FA

line 237: power off
    NP (no power), AD not requested
        NP: the driver may drive by hand; the unit takes no part
    4400000000000000FFFFFF0000FFFFFFFF0800
        68 state NP: lacking: 0 ETCS conditions, 1 no emergency brake, 2 End of Journey not reached, 3 last point not passed, 4 profiles to the target, 5 no inconsistency, 6 located in the journey, 8 data valid
        [NID_C 0 NID_SP 0 offset undefined speed 0 NID_OPERATIONAL FFFFFFFF]

line 238: power off
    refused by 3 (power): there is no power: only power on is taken

19 events accepted, 83 refused; the independent model answers the same
