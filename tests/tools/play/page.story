14 events. Below each, the unit's answer and the packets that it writes for the recorder.
Distances are in cm, speeds in cm/s; AD is the ETCS mode automatic driving.

line 11: power on
    CO (configuration), AD not requested
        CO: the driver may drive by hand; the unit waits to be configured
    4400000000000000FFFFFF0000FFFFFFFF0801
        68 state CO: lacking: 0 ETCS conditions, 1 no emergency brake, 2 End of Journey not reached, 3 last point not passed, 4 profiles to the target, 5 no inconsistency, 6 located in the journey, 8 data valid
        [NID_C 0 NID_SP 0 offset undefined speed 0 NID_OPERATIONAL FFFFFFFF]

line 12: load Day Line
    CO, AD not requested; targeted: Shed
    4100000000000000FFFFFF0000FFFFFFFF040040002328000054600100
        65 journey taken: NID_C 1024, NID_ATOTS 16384, date 9000, seconds 21600, counter 1, status 0
        [NID_C 0 NID_SP 0 offset undefined speed 0 NID_OPERATIONAL FFFFFFFF]
    4400000000000000FFFFFF0000FFFFFFFF09C1
        68 state CO: lacking: 0 ETCS conditions, 1 no emergency brake, 5 no inconsistency, 6 located in the journey, 8 data valid
        [NID_C 0 NID_SP 0 offset undefined speed 0 NID_OPERATIONAL FFFFFFFF]

line 13: position Depot 20000 speed 0
    CO, AD not requested; targeted: Shed
    440011000001F400004E200000FFFFFFFF0DC1
        68 state CO: lacking: 0 ETCS conditions, 1 no emergency brake, 5 no inconsistency, 8 data valid
        [NID_C 17 NID_SP 500 offset 20000 speed 0 NID_OPERATIONAL FFFFFFFF]

line 14: reports all
    CO, AD not requested; targeted: Shed
    440011000001F400004E200000FFFFFFFF1FF1
        68 state CO: all nine conditions
        [NID_C 17 NID_SP 500 offset 20000 speed 0 NID_OPERATIONAL FFFFFFFF]

line 15: configured
    RE (ready), AD requested; targeted: Shed
        RE: the driver may drive by hand, or press engage
    440011000001F400004E200000FFFFFFFF1FF4
        68 state RE: all nine conditions
        [NID_C 17 NID_SP 500 offset 20000 speed 0 NID_OPERATIONAL FFFFFFFF]

line 16: engage
    RE, AD requested; targeted: Shed

line 17: mode AD
    EG (engaged), AD requested; targeted: Shed
        EG: the driver may leave driving to the ATO, or take over by the lever at brake or by leaving AD
    440011000001F400004E200000FFFFFFFF1FF5
        68 state EG: all nine conditions
        [NID_C 17 NID_SP 500 offset 20000 speed 0 NID_OPERATIONAL FFFFFFFF]

line 18: position Depot 39900 speed 0
    AV (available), AD requested; reached: Shed
        AV: the driver may drive by hand; for ready the unit waits for train conditions, lever neutral and mode other
    3E0011000001F400009BDC0000FFFFFFFF001100001B590905
        62 Shed stopped: NID_C 17, NID_TP 7001, Q_EOJ_REACHED 1 (End of Journey ahead), alignment front, stopping data 5
        [NID_C 17 NID_SP 500 offset 39900 speed 0 NID_OPERATIONAL FFFFFFFF]
    440011000001F400009BDC0000FFFFFFFF1FF3
        68 state AV: all nine conditions
        [NID_C 17 NID_SP 500 offset 39900 speed 0 NID_OPERATIONAL FFFFFFFF]

line 19: engage
    refused by 6 (state): an engage press is taken in RE alone, the state is AV

line 20: mode other
    RE, AD requested; reached: Shed
    440011000001F400009BDC0000FFFFFFFF1FF4
        68 state RE: all nine conditions
        [NID_C 17 NID_SP 500 offset 39900 speed 0 NID_OPERATIONAL FFFFFFFF]

line 21: engage
    RE, AD requested; reached: Shed

line 22: mode AD
    EG, AD requested; reached: Shed
    440011000001F400009BDC0000FFFFFFFF1FF5
        68 state EG: all nine conditions
        [NID_C 17 NID_SP 500 offset 39900 speed 0 NID_OPERATIONAL FFFFFFFF]

line 23: position Depot 90001 speed 900
    DE (disengaging), AD requested; passed: Shed, Bridge; no point left
        DE: the driver may take over by the lever at brake or by leaving AD
    3E0011000001F400015F910384FFFFFFFF001100001B591100
        62 Shed departed: NID_C 17, NID_TP 7001, Q_EOJ_REACHED 1 (End of Journey ahead), alignment front, stopping data 0
        [NID_C 17 NID_SP 500 offset 90001 speed 900 NID_OPERATIONAL FFFFFFFF]
    3E0011000001F400015F910384FFFFFFFF001100001B5A0000
        62 Bridge passed: NID_C 17, NID_TP 7002, Q_EOJ_REACHED 0 (End of Journey reached or passed), alignment front, stopping data 0
        [NID_C 17 NID_SP 500 offset 90001 speed 900 NID_OPERATIONAL FFFFFFFF]
    440011000001F400015F910384FFFFFFFF1F36
        68 state DE: lacking: 2 End of Journey not reached, 3 last point not passed
        [NID_C 17 NID_SP 500 offset 90001 speed 900 NID_OPERATIONAL FFFFFFFF]

line 24: power off
    NP (no power), AD not requested
        NP: the driver may drive by hand; the unit takes no part
    4400000000000000FFFFFF0000FFFFFFFF0800
        68 state NP: lacking: 0 ETCS conditions, 1 no emergency brake, 2 End of Journey not reached, 3 last point not passed, 4 profiles to the target, 5 no inconsistency, 6 located in the journey, 8 data valid
        [NID_C 0 NID_SP 0 offset undefined speed 0 NID_OPERATIONAL FFFFFFFF]

13 events accepted, 1 refused; the independent model answers the same
