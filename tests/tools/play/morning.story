44 events. Below each, the unit's answer and the packets that it writes for the recorder.
Distances are in cm, speeds in cm/s; AD is the ETCS mode automatic driving.

line 37: power on
    CO (configuration), AD not requested
        CO: the driver may drive by hand; the unit waits to be configured
    4400000000000000FFFFFF0000FFFFFFFF0801
        68 state CO: lacking: 0 ETCS conditions, 1 no emergency brake, 2 End of Journey not reached, 3 last point not passed, 4 profiles to the target, 5 no inconsistency, 6 located in the journey, 8 data valid
        [NID_C 0 NID_SP 0 offset undefined speed 0 NID_OPERATIONAL FFFFFFFF]

line 38: length 20000
    CO, AD not requested

line 39: load First Line
    CO, AD not requested; targeted: Shed
    4100000000000000FFFFFF0000000123450400002A2328000054600100
        65 journey taken: NID_C 1024, NID_ATOTS 42, date 9000, seconds 21600, counter 1, status 0
        [NID_C 0 NID_SP 0 offset undefined speed 0 NID_OPERATIONAL 00012345]
    4400000000000000FFFFFF00000001234509C1
        68 state CO: lacking: 0 ETCS conditions, 1 no emergency brake, 5 no inconsistency, 6 located in the journey, 8 data valid
        [NID_C 0 NID_SP 0 offset undefined speed 0 NID_OPERATIONAL 00012345]

line 40: position Depot 20000 speed 0
    CO, AD not requested; targeted: Shed
    440011000001F400004E200000000123450DC1
        68 state CO: lacking: 0 ETCS conditions, 1 no emergency brake, 5 no inconsistency, 8 data valid
        [NID_C 17 NID_SP 500 offset 20000 speed 0 NID_OPERATIONAL 00012345]

line 41: reports all
    CO, AD not requested; targeted: Shed
    440011000001F400004E200000000123451FF1
        68 state CO: all nine conditions
        [NID_C 17 NID_SP 500 offset 20000 speed 0 NID_OPERATIONAL 00012345]

line 42: configured
    RE (ready), AD requested; targeted: Shed
        RE: the driver may drive by hand, or press engage
    440011000001F400004E200000000123451FF4
        68 state RE: all nine conditions
        [NID_C 17 NID_SP 500 offset 20000 speed 0 NID_OPERATIONAL 00012345]

line 45: lever traction
    AV (available), AD not requested; targeted: Shed
        AV: the driver may drive by hand; for ready the unit waits for train conditions, lever neutral and mode other
    440011000001F400004E200000000123451FF3
        68 state AV: all nine conditions
        [NID_C 17 NID_SP 500 offset 20000 speed 0 NID_OPERATIONAL 00012345]

line 46: position Depot 40000 speed 1500
    AV, AD not requested; targeted: Shed
    440011000001F400009C4005DC000123451FF3
        68 state AV: all nine conditions
        [NID_C 17 NID_SP 500 offset 40000 speed 1500 NID_OPERATIONAL 00012345]

line 47: lever brake
    AV, AD not requested; targeted: Shed

line 48: position Depot 59900 speed 0
    AV, AD not requested; reached: Shed
    3E0011000001F40000E9FC000000012345001100001B590905
        62 Shed stopped: NID_C 17, NID_TP 7001, Q_EOJ_REACHED 1 (End of Journey ahead), alignment front, stopping data 5
        [NID_C 17 NID_SP 500 offset 59900 speed 0 NID_OPERATIONAL 00012345]

line 49: lever neutral
    RE, AD requested; reached: Shed
    440011000001F40000E9FC0000000123451FF4
        68 state RE: all nine conditions
        [NID_C 17 NID_SP 500 offset 59900 speed 0 NID_OPERATIONAL 00012345]

line 53: lever traction
    AV, AD not requested; reached: Shed
    440011000001F40000E9FC0000000123451FF3
        68 state AV: all nine conditions
        [NID_C 17 NID_SP 500 offset 59900 speed 0 NID_OPERATIONAL 00012345]

line 54: position Depot 60020 speed 40
    AV, AD not requested; reached: Shed
    440011000001F40000EA740028000123451FF3
        68 state AV: all nine conditions
        [NID_C 17 NID_SP 500 offset 60020 speed 40 NID_OPERATIONAL 00012345]

line 55: position Depot undefined speed 40
    NA (not available), AD not requested; reached: Shed
        NA: the driver may drive by hand; the unit waits for the conditions that are lacking
    440011000001F400FFFFFF0028000123451BF2
        68 state NA: lacking: 6 located in the journey
        [NID_C 17 NID_SP 500 offset undefined speed 40 NID_OPERATIONAL 00012345]

line 56: position Depot 59990 speed 20
    AV, AD not requested; reached: Shed
    440011000001F40000EA560014000123451FF3
        68 state AV: all nine conditions
        [NID_C 17 NID_SP 500 offset 59990 speed 20 NID_OPERATIONAL 00012345]

line 57: lever brake
    AV, AD not requested; reached: Shed

line 58: position Depot 59980 speed 0
    AV, AD not requested; reached: Shed

line 59: lever neutral
    RE, AD requested; reached: Shed
    440011000001F40000EA4C0000000123451FF4
        68 state RE: all nine conditions
        [NID_C 17 NID_SP 500 offset 59980 speed 0 NID_OPERATIONAL 00012345]

line 71: load Mixed Line
    refused by 12 (journey): point Mill, 150,000 from the journey's start, is not behind point Tunnel, at 220,000
    410011000001F40000EA4C000000012345001140000000000000000001
        65 profiles turned down: NID_C 17, NID_ATOTS 16384, date 0, seconds 0, counter 0, status 1
        [NID_C 17 NID_SP 500 offset 59980 speed 0 NID_OPERATIONAL 00012345]

line 83: load Held Line
    RE, AD requested; targeted: Shed
    410011000001F40000EA4C0000000123450011002A2328000055500300
        65 journey taken: NID_C 17, NID_ATOTS 42, date 9000, seconds 21840, counter 3, status 0
        [NID_C 17 NID_SP 500 offset 59980 speed 0 NID_OPERATIONAL 00012345]
    3E0011000001F40000EA4C000000012345001100001B5B3B00
        62 Mill skipped by trackside: NID_C 17, NID_TP 7003, Q_EOJ_REACHED 1 (End of Journey ahead), alignment middle, stopping data 0
        [NID_C 17 NID_SP 500 offset 59980 speed 0 NID_OPERATIONAL 00012345]
    3E0011000001F40000EA4C000000012345001100001B5D3900
        62 Chapel skipped by trackside: NID_C 17, NID_TP 7005, Q_EOJ_REACHED 1 (End of Journey ahead), alignment front, stopping data 0
        [NID_C 17 NID_SP 500 offset 59980 speed 0 NID_OPERATIONAL 00012345]

line 84: position Depot 59980 speed 0
    RE, AD requested; reached: Shed
    3E0011000001F40000EA4C000000012345001100001B590905
        62 Shed stopped: NID_C 17, NID_TP 7001, Q_EOJ_REACHED 1 (End of Journey ahead), alignment front, stopping data 5
        [NID_C 17 NID_SP 500 offset 59980 speed 0 NID_OPERATIONAL 00012345]
    3E0011000001F40000EA4C000000012345001100001B591900
        62 Shed held: NID_C 17, NID_TP 7001, Q_EOJ_REACHED 1 (End of Journey ahead), alignment front, stopping data 0
        [NID_C 17 NID_SP 500 offset 59980 speed 0 NID_OPERATIONAL 00012345]

line 85: engage
    refused by 20 (state): point Shed is reached, and the train is held there

line 88: load Second Line
    RE, AD requested; targeted: Shed
    410011000001F40000EA4C0000000123450011002A23280000558C0400
        65 journey taken: NID_C 17, NID_ATOTS 42, date 9000, seconds 21900, counter 4, status 0
        [NID_C 17 NID_SP 500 offset 59980 speed 0 NID_OPERATIONAL 00012345]
    3E0011000001F40000EA4C000000012345001100001B592100
        62 Shed hold revoked: NID_C 17, NID_TP 7001, Q_EOJ_REACHED 1 (End of Journey ahead), alignment front, stopping data 0
        [NID_C 17 NID_SP 500 offset 59980 speed 0 NID_OPERATIONAL 00012345]
    3E0011000001F40000EA4C000000012345001100001B5D4100
        62 Chapel trackside skip revoked: NID_C 17, NID_TP 7005, Q_EOJ_REACHED 1 (End of Journey ahead), alignment front, stopping data 0
        [NID_C 17 NID_SP 500 offset 59980 speed 0 NID_OPERATIONAL 00012345]

line 89: position Depot 59980 speed 0
    RE, AD requested; reached: Shed
    3E0011000001F40000EA4C000000012345001100001B590905
        62 Shed stopped: NID_C 17, NID_TP 7001, Q_EOJ_REACHED 1 (End of Journey ahead), alignment front, stopping data 5
        [NID_C 17 NID_SP 500 offset 59980 speed 0 NID_OPERATIONAL 00012345]

line 92: engage
    RE, AD requested; reached: Shed

line 93: mode AD
    EG (engaged), AD requested; reached: Shed
        EG: the driver may leave driving to the ATO, or take over by the lever at brake or by leaving AD
    440011000001F40000EA4C0000000123451FF5
        68 state EG: all nine conditions
        [NID_C 17 NID_SP 500 offset 59980 speed 0 NID_OPERATIONAL 00012345]

line 94: position Depot 60500 speed 800
    EG, AD requested; passed: Shed; targeted: Bridge
    3E0011000001F40000EC54032000012345001100001B591100
        62 Shed departed: NID_C 17, NID_TP 7001, Q_EOJ_REACHED 1 (End of Journey ahead), alignment front, stopping data 0
        [NID_C 17 NID_SP 500 offset 60500 speed 800 NID_OPERATIONAL 00012345]

line 95: position Depot 95000 speed 2500
    EG, AD requested; passed: Bridge; targeted: Mill
    3E0011000001F40001731809C400012345001100001B5A0100
        62 Bridge passed: NID_C 17, NID_TP 7002, Q_EOJ_REACHED 1 (End of Journey ahead), alignment front, stopping data 0
        [NID_C 17 NID_SP 500 offset 95000 speed 2500 NID_OPERATIONAL 00012345]

line 99: slippery on Valley from 20000 to 48000 category 1 on Valley from 125000 to 149000 category 2
    EG, AD requested; slippery rail: 2 rows in place of none; targeted: Mill
    400011000001F40001731809C400012345020011000001F5010000004E200000BB800011000001F502000001E84800024608
        64 slippery rail: 2 rows
        row 1: NID_C 17, NID_SP 501, category 1, range 0, start 20000, end 48000
        row 2: NID_C 17, NID_SP 501, category 2, range 0, start 125000, end 149000
        [NID_C 17 NID_SP 500 offset 95000 speed 2500 NID_OPERATIONAL 00012345]

line 102: position Valley 61000 speed 2500
    EG, AD requested; passed: Mill; targeted: Tunnel
    3E0011000001F50000EE4809C400012345001100001B5B0300
        62 Mill passed: NID_C 17, NID_TP 7003, Q_EOJ_REACHED 1 (End of Journey ahead), alignment middle, stopping data 0
        [NID_C 17 NID_SP 501 offset 61000 speed 2500 NID_OPERATIONAL 00012345]

line 105: position Valley 100500 speed 2500
    DE (disengaging), AD requested; targeted: Tunnel
        DE: the driver may take over by the lever at brake or by leaving AD
    440011000001F50001889409C40001234517F6
        68 state DE: lacking: 7 outside zones
        [NID_C 17 NID_SP 501 offset 100500 speed 2500 NID_OPERATIONAL 00012345]

line 106: lever brake
    NA, AD not requested; targeted: Tunnel
    440011000001F50001889409C40001234517F2
        68 state NA: lacking: 7 outside zones
        [NID_C 17 NID_SP 501 offset 100500 speed 2500 NID_OPERATIONAL 00012345]

line 107: position Valley 110000 speed 1000
    AV, AD not requested; targeted: Tunnel
    440011000001F50001ADB003E8000123451FF3
        68 state AV: all nine conditions
        [NID_C 17 NID_SP 501 offset 110000 speed 1000 NID_OPERATIONAL 00012345]

line 108: mode other
    AV, AD not requested; targeted: Tunnel

line 109: lever neutral
    RE, AD requested; targeted: Tunnel
    440011000001F50001ADB003E8000123451FF4
        68 state RE: all nine conditions
        [NID_C 17 NID_SP 501 offset 110000 speed 1000 NID_OPERATIONAL 00012345]

line 110: engage
    RE, AD requested; targeted: Tunnel

line 111: mode AD
    EG, AD requested; targeted: Tunnel
    440011000001F50001ADB003E8000123451FF5
        68 state EG: all nine conditions
        [NID_C 17 NID_SP 501 offset 110000 speed 1000 NID_OPERATIONAL 00012345]

line 114: skip Chapel
    EG, AD requested; targeted: Tunnel
    3E0011000001F50001ADB003E800012345001100001B5D2900
        62 Chapel skipped by the driver: NID_C 17, NID_TP 7005, Q_EOJ_REACHED 1 (End of Journey ahead), alignment front, stopping data 0
        [NID_C 17 NID_SP 501 offset 110000 speed 1000 NID_OPERATIONAL 00012345]

line 115: position Valley 160000 speed 2500
    EG, AD requested; passed: Tunnel, Chapel; targeted: Quay
    3E0011000001F50002710009C400012345001100001B5C0100
        62 Tunnel passed: NID_C 17, NID_TP 7004, Q_EOJ_REACHED 1 (End of Journey ahead), alignment front, stopping data 0
        [NID_C 17 NID_SP 501 offset 160000 speed 2500 NID_OPERATIONAL 00012345]
    3E0011000001F50002710009C400012345001100001B5D0100
        62 Chapel passed: NID_C 17, NID_TP 7005, Q_EOJ_REACHED 1 (End of Journey ahead), alignment front, stopping data 0
        [NID_C 17 NID_SP 501 offset 160000 speed 2500 NID_OPERATIONAL 00012345]

line 118: slippery none
    EG, AD requested; slippery rail: none in place of 2 rows; targeted: Quay
    400011000001F50002710009C40001234500
        64 slippery rail: 0 rows
        [NID_C 17 NID_SP 501 offset 160000 speed 2500 NID_OPERATIONAL 00012345]

line 121: position Harbour 60000 speed 1200
    EG, AD requested; targeted: Quay

line 122: position Harbour 90000 speed 0
    NA, AD not requested; reached: Quay
    3E0011000001F600015F90000000012345001100001B5E0C0C
        62 Quay stopped: NID_C 17, NID_TP 7006, Q_EOJ_REACHED 0 (End of Journey reached or passed), alignment rear, stopping data 12
        [NID_C 17 NID_SP 502 offset 90000 speed 0 NID_OPERATIONAL 00012345]
    440011000001F600015F900000000123451FB2
        68 state NA: lacking: 2 End of Journey not reached
        [NID_C 17 NID_SP 502 offset 90000 speed 0 NID_OPERATIONAL 00012345]

line 123: mode other
    NA, AD not requested; reached: Quay

line 124: power off
    NP (no power), AD not requested
        NP: the driver may drive by hand; the unit takes no part
    4400000000000000FFFFFF0000FFFFFFFF0800
        68 state NP: lacking: 0 ETCS conditions, 1 no emergency brake, 2 End of Journey not reached, 3 last point not passed, 4 profiles to the target, 5 no inconsistency, 6 located in the journey, 8 data valid
        [NID_C 0 NID_SP 0 offset undefined speed 0 NID_OPERATIONAL FFFFFFFF]

42 events accepted, 2 refused; the independent model answers the same
