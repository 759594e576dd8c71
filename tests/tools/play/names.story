15 events. Below each, the unit's answer and the packets that it writes for the recorder.
Distances are in cm, speeds in cm/s; AD is the ETCS mode automatic driving.

line 24: power on
    CO (configuration), AD not requested
        CO: the driver may drive by hand; the unit waits to be configured
    4400000000000000FFFFFF0000FFFFFFFF0801
        68 state CO: lacking: 0 ETCS conditions, 1 no emergency brake, 2 End of Journey not reached, 3 last point not passed, 4 profiles to the target, 5 no inconsistency, 6 located in the journey, 8 data valid
        [NID_C 0 NID_SP 0 offset undefined speed 0 NID_OPERATIONAL FFFFFFFF]

line 25: position Valley 0 speed 0
    CO, AD not requested

line 26: load First All
    CO, AD not requested; targeted: Mill
    410011000001F5000000000000FFFFFFFF001140000001000000000000
        65 journey taken: NID_C 17, NID_ATOTS 16384, date 1, seconds 0, counter 0, status 0
        [NID_C 17 NID_SP 501 offset 0 speed 0 NID_OPERATIONAL FFFFFFFF]
    440011000001F5000000000000FFFFFFFF0DC1
        68 state CO: lacking: 0 ETCS conditions, 1 no emergency brake, 5 no inconsistency, 8 data valid
        [NID_C 17 NID_SP 501 offset 0 speed 0 NID_OPERATIONAL FFFFFFFF]

line 27: skip Mill
    CO, AD not requested; targeted: Mill
    3E0011000001F5000000000000FFFFFFFF001100001B5B2900
        62 Mill skipped by the driver: NID_C 17, NID_TP 7003, Q_EOJ_REACHED 1 (End of Journey ahead), alignment front, stopping data 0
        [NID_C 17 NID_SP 501 offset 0 speed 0 NID_OPERATIONAL FFFFFFFF]

line 28: position Valley 50001 speed 100
    CO, AD not requested; passed: Mill; no point left
    3E0011000001F50000C3510064FFFFFFFF001100001B5B0000
        62 Mill passed: NID_C 17, NID_TP 7003, Q_EOJ_REACHED 0 (End of Journey reached or passed), alignment front, stopping data 0
        [NID_C 17 NID_SP 501 offset 50001 speed 100 NID_OPERATIONAL FFFFFFFF]
    440011000001F50000C3510064FFFFFFFF0D01
        68 state CO: lacking: 0 ETCS conditions, 1 no emergency brake, 2 End of Journey not reached, 3 last point not passed, 5 no inconsistency, 8 data valid
        [NID_C 17 NID_SP 501 offset 50001 speed 100 NID_OPERATIONAL FFFFFFFF]

line 29: load Second All
    CO, AD not requested; targeted: Pier
    410011000001F50000C3510064FFFFFFFF040040000001000000000100
        65 journey taken: NID_C 1024, NID_ATOTS 16384, date 1, seconds 0, counter 1, status 0
        [NID_C 17 NID_SP 501 offset 50001 speed 100 NID_OPERATIONAL FFFFFFFF]
    440011000001F50000C3510064FFFFFFFF09C1
        68 state CO: lacking: 0 ETCS conditions, 1 no emergency brake, 5 no inconsistency, 6 located in the journey, 8 data valid
        [NID_C 17 NID_SP 501 offset 50001 speed 100 NID_OPERATIONAL FFFFFFFF]

line 30: position Harbour 70000 speed 0
    CO, AD not requested; reached: Pier
    3E0011000001F6000111700000FFFFFFFF001100001B5B0800
        62 Pier stopped: NID_C 17, NID_TP 7003, Q_EOJ_REACHED 0 (End of Journey reached or passed), alignment front, stopping data 0
        [NID_C 17 NID_SP 502 offset 70000 speed 0 NID_OPERATIONAL FFFFFFFF]
    440011000001F6000111700000FFFFFFFF0D81
        68 state CO: lacking: 0 ETCS conditions, 1 no emergency brake, 2 End of Journey not reached, 5 no inconsistency, 8 data valid
        [NID_C 17 NID_SP 502 offset 70000 speed 0 NID_OPERATIONAL FFFFFFFF]

line 31: position Harbour 70001 speed 0
    CO, AD not requested; reached: Pier

line 32: position Harbour undefined speed 1
    CO, AD not requested; reached: Pier
    440011000001F600FFFFFF0001FFFFFFFF0981
        68 state CO: lacking: 0 ETCS conditions, 1 no emergency brake, 2 End of Journey not reached, 5 no inconsistency, 6 located in the journey, 8 data valid
        [NID_C 17 NID_SP 502 offset undefined speed 1 NID_OPERATIONAL FFFFFFFF]

line 33: position Harbour 70301 speed 1
    CO, AD not requested; passed: Pier; no point left
    3E0011000001F60001129D0001FFFFFFFF001100001B5B1000
        62 Pier departed: NID_C 17, NID_TP 7003, Q_EOJ_REACHED 0 (End of Journey reached or passed), alignment front, stopping data 0
        [NID_C 17 NID_SP 502 offset 70301 speed 1 NID_OPERATIONAL FFFFFFFF]
    440011000001F60001129D0001FFFFFFFF0D01
        68 state CO: lacking: 0 ETCS conditions, 1 no emergency brake, 2 End of Journey not reached, 3 last point not passed, 5 no inconsistency, 8 data valid
        [NID_C 17 NID_SP 502 offset 70301 speed 1 NID_OPERATIONAL FFFFFFFF]

line 34: load Third All
    CO, AD not requested; targeted: Border
    410011000001F60001129D0001FFFFFFFF040040000001000000000200
        65 journey taken: NID_C 1024, NID_ATOTS 16384, date 1, seconds 0, counter 2, status 0
        [NID_C 17 NID_SP 502 offset 70301 speed 1 NID_OPERATIONAL FFFFFFFF]
    440011000001F60001129D0001FFFFFFFF09C1
        68 state CO: lacking: 0 ETCS conditions, 1 no emergency brake, 5 no inconsistency, 6 located in the journey, 8 data valid
        [NID_C 17 NID_SP 502 offset 70301 speed 1 NID_OPERATIONAL FFFFFFFF]

line 35: position Abroad 600 speed 200
    CO, AD not requested; passed: Border; no point left
    3E0012000001F50000025800C8FFFFFFFF001200001B5B0000
        62 Border passed: NID_C 18, NID_TP 7003, Q_EOJ_REACHED 0 (End of Journey reached or passed), alignment front, stopping data 0
        [NID_C 18 NID_SP 501 offset 600 speed 200 NID_OPERATIONAL FFFFFFFF]
    440012000001F50000025800C8FFFFFFFF0D01
        68 state CO: lacking: 0 ETCS conditions, 1 no emergency brake, 2 End of Journey not reached, 3 last point not passed, 5 no inconsistency, 8 data valid
        [NID_C 18 NID_SP 501 offset 600 speed 200 NID_OPERATIONAL FFFFFFFF]

line 36: load Fourth Part
    CO, AD not requested; targeted: Mill
    410012000001F50000025800C8FFFFFFFF001240000001000000000300
        65 journey taken: NID_C 18, NID_ATOTS 16384, date 1, seconds 0, counter 3, status 0
        [NID_C 18 NID_SP 501 offset 600 speed 200 NID_OPERATIONAL FFFFFFFF]
    440012000001F50000025800C8FFFFFFFF0CC1
        68 state CO: lacking: 0 ETCS conditions, 1 no emergency brake, 4 profiles to the target, 5 no inconsistency, 8 data valid
        [NID_C 18 NID_SP 501 offset 600 speed 200 NID_OPERATIONAL FFFFFFFF]

line 37: load Second All
    CO, AD not requested; put behind: Pier; no point left
    410012000001F50000025800C8FFFFFFFF001240000001000000000100
        65 journey taken: NID_C 18, NID_ATOTS 16384, date 1, seconds 0, counter 1, status 0
        [NID_C 18 NID_SP 501 offset 600 speed 200 NID_OPERATIONAL FFFFFFFF]
    440012000001F50000025800C8FFFFFFFF0D01
        68 state CO: lacking: 0 ETCS conditions, 1 no emergency brake, 2 End of Journey not reached, 3 last point not passed, 5 no inconsistency, 8 data valid
        [NID_C 18 NID_SP 501 offset 600 speed 200 NID_OPERATIONAL FFFFFFFF]

line 38: position Abroad 700 speed 200
    CO, AD not requested; no point left

15 events accepted, 0 refused; the independent model answers the same
