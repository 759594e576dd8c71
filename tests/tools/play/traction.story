38 events. Below each, the unit's answer and the packets that it writes for the recorder.
Distances are in cm, speeds in cm/s; AD is the ETCS mode automatic driving.

line 17: traction 20
    refused by 3 (power): there is no power: only power on is taken

line 18: power on
    CO (configuration), AD not requested
        CO: the driver may drive by hand; the unit waits to be configured
    4400000000000000FFFFFF0000FFFFFFFF0801
        68 state CO: lacking: 0 ETCS conditions, 1 no emergency brake, 2 End of Journey not reached, 3 last point not passed, 4 profiles to the target, 5 no inconsistency, 6 located in the journey, 8 data valid
        [NID_C 0 NID_SP 0 offset undefined speed 0 NID_OPERATIONAL FFFFFFFF]

line 19: load Day Line
    CO, AD not requested; targeted: Shed
    4100000000000000FFFFFF000000012345040040002328000054600100
        65 journey taken: NID_C 1024, NID_ATOTS 16384, date 9000, seconds 21600, counter 1, status 0
        [NID_C 0 NID_SP 0 offset undefined speed 0 NID_OPERATIONAL 00012345]
    4400000000000000FFFFFF00000001234509C1
        68 state CO: lacking: 0 ETCS conditions, 1 no emergency brake, 5 no inconsistency, 6 located in the journey, 8 data valid
        [NID_C 0 NID_SP 0 offset undefined speed 0 NID_OPERATIONAL 00012345]

line 20: position Depot 20000 speed 0
    CO, AD not requested; targeted: Shed
    440011000001F400004E200000000123450DC1
        68 state CO: lacking: 0 ETCS conditions, 1 no emergency brake, 5 no inconsistency, 8 data valid
        [NID_C 17 NID_SP 500 offset 20000 speed 0 NID_OPERATIONAL 00012345]

line 21: reports all
    CO, AD not requested; targeted: Shed
    440011000001F400004E200000000123451FF1
        68 state CO: all nine conditions
        [NID_C 17 NID_SP 500 offset 20000 speed 0 NID_OPERATIONAL 00012345]

line 22: configured
    RE (ready), AD requested; targeted: Shed
        RE: the driver may drive by hand, or press engage
    440011000001F400004E200000000123451FF4
        68 state RE: all nine conditions
        [NID_C 17 NID_SP 500 offset 20000 speed 0 NID_OPERATIONAL 00012345]

line 23: traction 50
    RE, AD requested; a request counts in EG and DE alone; targeted: Shed

line 26: engage
    RE, AD requested; targeted: Shed

line 27: mode AD
    EG (engaged), AD requested; targeted: Shed
        EG: the driver may leave driving to the ATO, or take over by the lever at brake or by leaving AD
    440011000001F400004E200000000123451FF5
        68 state EG: all nine conditions
        [NID_C 17 NID_SP 500 offset 20000 speed 0 NID_OPERATIONAL 00012345]

line 28: traction 20 trabrrq 20 locobrrq 0 suptb 1 rtbrq 200
    EG, AD requested; the first request since EG was entered, range 1; targeted: Shed
    3D0011000001F400004E2000000001234514000100C8
        61 traction and brakes requested: M_ATO_TraBrRq 20, M_ATO_LocoBrRq 0, Q_ATO_SupTB 1, M_ATO_RTBRq 200
        [NID_C 17 NID_SP 500 offset 20000 speed 0 NID_OPERATIONAL 00012345]

line 29: traction 27 suptb 1
    EG, AD requested; the request stays in range 1; targeted: Shed

line 30: traction 28 suptb 1
    EG, AD requested; the request goes from range 1 to 2; targeted: Shed
    3D0011000001F400004E200000000123450000010000
        61 traction and brakes requested: M_ATO_TraBrRq 0, M_ATO_LocoBrRq 0, Q_ATO_SupTB 1, M_ATO_RTBRq 0
        [NID_C 17 NID_SP 500 offset 20000 speed 0 NID_OPERATIONAL 00012345]

line 31: position Depot 40000 speed 1200
    EG, AD requested; targeted: Shed

line 32: traction 23 suptb 1
    EG, AD requested; the request stays in range 2; targeted: Shed

line 33: traction 22 suptb 1
    EG, AD requested; the request goes from range 2 to 1; targeted: Shed
    3D0011000001F400009C4004B0000123450000010000
        61 traction and brakes requested: M_ATO_TraBrRq 0, M_ATO_LocoBrRq 0, Q_ATO_SupTB 1, M_ATO_RTBRq 0
        [NID_C 17 NID_SP 500 offset 40000 speed 1200 NID_OPERATIONAL 00012345]

line 34: traction 75 suptb 1
    EG, AD requested; the request goes from range 1 to 2; targeted: Shed
    3D0011000001F400009C4004B0000123450000010000
        61 traction and brakes requested: M_ATO_TraBrRq 0, M_ATO_LocoBrRq 0, Q_ATO_SupTB 1, M_ATO_RTBRq 0
        [NID_C 17 NID_SP 500 offset 40000 speed 1200 NID_OPERATIONAL 00012345]

line 35: traction 92 suptb 1
    EG, AD requested; the request goes from range 2 to 3; targeted: Shed
    3D0011000001F400009C4004B0000123450000010000
        61 traction and brakes requested: M_ATO_TraBrRq 0, M_ATO_LocoBrRq 0, Q_ATO_SupTB 1, M_ATO_RTBRq 0
        [NID_C 17 NID_SP 500 offset 40000 speed 1200 NID_OPERATIONAL 00012345]

line 36: traction 95 suptb 1
    EG, AD requested; the request stays in range 3; targeted: Shed

line 37: traction 96 suptb 1
    EG, AD requested; the request goes from range 3 to 4; targeted: Shed
    3D0011000001F400009C4004B0000123450000010000
        61 traction and brakes requested: M_ATO_TraBrRq 0, M_ATO_LocoBrRq 0, Q_ATO_SupTB 1, M_ATO_RTBRq 0
        [NID_C 17 NID_SP 500 offset 40000 speed 1200 NID_OPERATIONAL 00012345]

line 38: traction 75 suptb 1
    EG, AD requested; the request goes from range 4 to 2; targeted: Shed
    3D0011000001F400009C4004B0000123450000010000
        61 traction and brakes requested: M_ATO_TraBrRq 0, M_ATO_LocoBrRq 0, Q_ATO_SupTB 1, M_ATO_RTBRq 0
        [NID_C 17 NID_SP 500 offset 40000 speed 1200 NID_OPERATIONAL 00012345]

line 39: traction 75 suptb 3
    EG, AD requested; the request stays in range 2, Q_ATO_SupTB changes; targeted: Shed
    3D0011000001F400009C4004B0000123450000030000
        61 traction and brakes requested: M_ATO_TraBrRq 0, M_ATO_LocoBrRq 0, Q_ATO_SupTB 3, M_ATO_RTBRq 0
        [NID_C 17 NID_SP 500 offset 40000 speed 1200 NID_OPERATIONAL 00012345]

line 40: traction 101 suptb 3
    refused by 2 (event): the request is 101; it must be -100 to 100

line 43: traction -80 trabrrq 80 locobrrq 15 suptb 3 rtbrq -800
    EG, AD requested; the request goes from range 2 to 3; targeted: Shed
    3D0011000001F400009C4004B000012345500F03FCE0
        61 traction and brakes requested: M_ATO_TraBrRq 80, M_ATO_LocoBrRq 15, Q_ATO_SupTB 3, M_ATO_RTBRq -800
        [NID_C 17 NID_SP 500 offset 40000 speed 1200 NID_OPERATIONAL 00012345]

line 44: traction -25 suptb 3
    EG, AD requested; the request goes from range 3 to 1; targeted: Shed
    3D0011000001F400009C4004B0000123450000030000
        61 traction and brakes requested: M_ATO_TraBrRq 0, M_ATO_LocoBrRq 0, Q_ATO_SupTB 3, M_ATO_RTBRq 0
        [NID_C 17 NID_SP 500 offset 40000 speed 1200 NID_OPERATIONAL 00012345]

line 45: traction 0 suptb 3
    EG, AD requested; the request goes from range 1 to 0; targeted: Shed
    3D0011000001F400009C4004B0000123450000030000
        61 traction and brakes requested: M_ATO_TraBrRq 0, M_ATO_LocoBrRq 0, Q_ATO_SupTB 3, M_ATO_RTBRq 0
        [NID_C 17 NID_SP 500 offset 40000 speed 1200 NID_OPERATIONAL 00012345]

line 48: reports etcs no_brake consistent train
    DE (disengaging), AD requested; targeted: Shed
        DE: the driver may take over by the lever at brake or by leaving AD
    440011000001F400009C4004B0000123450FF6
        68 state DE: lacking: 8 data valid
        [NID_C 17 NID_SP 500 offset 40000 speed 1200 NID_OPERATIONAL 00012345]

line 49: traction 0 suptb 3
    DE, AD requested; the request stays in range 0; targeted: Shed

line 50: traction -60 suptb 3
    DE, AD requested; the request goes from range 0 to 2; targeted: Shed
    3D0011000001F400009C4004B0000123450000030000
        61 traction and brakes requested: M_ATO_TraBrRq 0, M_ATO_LocoBrRq 0, Q_ATO_SupTB 3, M_ATO_RTBRq 0
        [NID_C 17 NID_SP 500 offset 40000 speed 1200 NID_OPERATIONAL 00012345]

line 53: lever brake
    NA (not available), AD not requested; targeted: Shed
        NA: the driver may drive by hand; the unit waits for the conditions that are lacking
    440011000001F400009C4004B0000123450FF2
        68 state NA: lacking: 8 data valid
        [NID_C 17 NID_SP 500 offset 40000 speed 1200 NID_OPERATIONAL 00012345]

line 54: reports all
    AV (available), AD not requested; targeted: Shed
        AV: the driver may drive by hand; for ready the unit waits for train conditions, lever neutral and mode other
    440011000001F400009C4004B0000123451FF3
        68 state AV: all nine conditions
        [NID_C 17 NID_SP 500 offset 40000 speed 1200 NID_OPERATIONAL 00012345]

line 55: traction -90 suptb 3
    AV, AD not requested; a request counts in EG and DE alone; targeted: Shed

line 56: mode other
    AV, AD not requested; targeted: Shed

line 57: position Depot 60000 speed 0
    AV, AD not requested; targeted: Shed

line 58: lever neutral
    RE, AD requested; targeted: Shed
    440011000001F40000EA600000000123451FF4
        68 state RE: all nine conditions
        [NID_C 17 NID_SP 500 offset 60000 speed 0 NID_OPERATIONAL 00012345]

line 59: engage
    RE, AD requested; targeted: Shed

line 60: mode AD
    EG, AD requested; targeted: Shed
    440011000001F40000EA600000000123451FF5
        68 state EG: all nine conditions
        [NID_C 17 NID_SP 500 offset 60000 speed 0 NID_OPERATIONAL 00012345]

line 61: traction -60 suptb 3
    EG, AD requested; the first request since EG was entered, range 2; targeted: Shed
    3D0011000001F40000EA600000000123450000030000
        61 traction and brakes requested: M_ATO_TraBrRq 0, M_ATO_LocoBrRq 0, Q_ATO_SupTB 3, M_ATO_RTBRq 0
        [NID_C 17 NID_SP 500 offset 60000 speed 0 NID_OPERATIONAL 00012345]

line 62: power off
    NP (no power), AD not requested
        NP: the driver may drive by hand; the unit takes no part
    4400000000000000FFFFFF0000FFFFFFFF0800
        68 state NP: lacking: 0 ETCS conditions, 1 no emergency brake, 2 End of Journey not reached, 3 last point not passed, 4 profiles to the target, 5 no inconsistency, 6 located in the journey, 8 data valid
        [NID_C 0 NID_SP 0 offset undefined speed 0 NID_OPERATIONAL FFFFFFFF]

36 events accepted, 2 refused; the independent model answers the same
