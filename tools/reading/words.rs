//! Values of packets in words, as SUBSET-140 and document 01 have them.

use model::events::UNDEFINED;
use model::words::{ALIGNMENTS, STATES, STATE_NAMES};

/// SUBSET-140, Table 2.
const NAMES: [(u32, &str); 9] = [
    (61, "Traction_Brake_Pneumatic_Brake_Requested"),
    (62, "Timing_Point"),
    (63, "Doors_Command"),
    (64, "Adhesion_System"),
    (65, "JP_Received"),
    (66, "Stopped_At_EOA"),
    (67, "ATO_Communication_Link_Status"),
    (68, "ATO_Status"),
    (90, "ATO_OB_Proprietary_Data"),
];

/// Table 5, Q_TP_STATUS.
const STATUSES: [&str; 9] = [
    "train passed the TP",
    "train stopped at the TP",
    "train departed from the TP",
    "train held at the Stopping Point",
    "held command revoked by JP Update/JP Revoke",
    "to be skipped by Driver",
    "skip revoked by Driver",
    "to be skipped by ATO-TS",
    "skip revoked by ATO-TS",
];

/// Table 11, the bits of M_ATO_OPERATIONAL_CONDITIONS; document 01 numbers the conditions alike.
const CONDITIONS: [&str; 9] = [
    "ETCS-OB applicable conditions for ATO Operational are fulfilled",
    "no Emergency Brake application by another system or the driver",
    "TP marked as \"End of Journey\" neither reached nor passed",
    "last TP of the journey not passed",
    "all referenced SPs up to the Targeted TP are available on board",
    "no data inconsistency affecting the next TP detected",
    "train is located in a SP included in the current JP",
    "train is not located within an ATO Inhibition Zone",
    "ETCS Data and ATO Specific Data are valid",
];

pub const UNKNOWN_NIDC: u32 = 1024;
pub const UNKNOWN_ATOTS: u32 = 16_384;
const NO_OPERATIONAL: u32 = u32::MAX;

/// A count with its noun.
pub fn counted(count: usize, one: &str, many: &str) -> String {
    format!("{count} {}", if count == 1 { one } else { many })
}

/// The name of a packet's number.
pub fn packet_name(number: u32) -> String {
    let name = NAMES.iter().find(|(other, _)| *other == number);
    name.map_or("no packet of SUBSET-140".into(), |(_, name)| name.to_string())
}

pub fn nothing(_: u32) -> String {
    String::new()
}

pub fn country(_: u32) -> String {
    "country or region".into()
}

pub fn country_of_train(value: u32) -> String {
    if value == UNKNOWN_NIDC {
        "unknown".into()
    } else {
        country(value)
    }
}

pub fn segment(_: u32) -> String {
    "Segment Profile".into()
}

/// Centimetres as metres.
fn metres(value: u32) -> String {
    format!("cm, {}.{:02} m", value / 100, value % 100)
}

pub fn offset(value: u32) -> String {
    if value == UNDEFINED {
        "Undefined Location".into()
    } else {
        metres(value) + " from the beginning of the SP"
    }
}

/// Centimetres a second as kilometres an hour, exactly.
pub fn speed(value: u32) -> String {
    let metres_an_hour = value * 36;
    format!("cm/s, {}.{:03} km/h", metres_an_hour / 1000, metres_an_hour % 1000)
}

/// Digits in BCD; a shorter number is filled with F on the right.
pub fn operational(value: u32) -> String {
    let filled = format!("{value:08X}");
    let digits = filled.trim_end_matches('F');
    match value {
        NO_OPERATIONAL => "no journey, or none given by it".into(),
        _ if digits.bytes().all(|digit| digit.is_ascii_digit()) => format!("train running number {digits}"),
        _ => "train running number, not BCD".into(),
    }
}

pub fn unsigned(_: u32) -> String {
    "see SUBSET-139 7.3.1".into()
}

/// The bits of a byte that stand.
pub fn bits(value: u32) -> String {
    let standing: Vec<String> = (0..8).filter(|k| value >> k & 1 == 1).map(|k| k.to_string()).collect();
    let standing = if standing.is_empty() { "none".into() } else { standing.join(" ") };
    format!("bits that stand: {standing}; see SUBSET-139 7.3.1")
}

/// Two bytes that are an INT16.
pub fn signed(value: u32) -> String {
    format!("as an INT16 {}; see SUBSET-139 7.3.1", value as u16 as i16)
}

/// How many rows of slippery rail.
pub fn constraints(count: u32) -> String {
    match count {
        0 => "no reduced adhesion conditions announced".into(),
        1..=31 => "iterations of Temporary Constraints".into(),
        _ => "spare".into(),
    }
}

/// Of a row, what SUBSET-126 sets.
pub fn constraint(_: u32) -> String {
    "see SUBSET-126 7.3.6.2".into()
}

pub fn location(value: u32) -> String {
    metres(value) + "; see SUBSET-126 7.3.6.2"
}

pub fn timing_point(value: u32) -> String {
    if value == u32::MAX {
        "undefined value".into()
    } else {
        "TP identity".into()
    }
}

/// 0 where it is reached: the inverse of its name.
pub fn end_of_journey(value: u32) -> String {
    if value == 0 {
        "EoJ reached or passed".into()
    } else {
        "EoJ neither reached nor passed".into()
    }
}

pub fn alignment(value: u32) -> String {
    ALIGNMENTS.get(value as usize).map_or("no alignment".into(), |name| format!("{name} of the train"))
}

pub fn status(value: u32) -> String {
    STATUSES.get(value as usize).map_or("no status".into(), |name| name.to_string())
}

pub fn tolerance(_: u32) -> String {
    "of a stop only; see SUBSET-126 7.3.9.2".into()
}

pub fn accurate_stopping(_: u32) -> String {
    "of a stop only; see SUBSET-126 7.3.10.2".into()
}

pub fn atots(value: u32) -> String {
    if value == UNKNOWN_ATOTS {
        "unknown".into()
    } else {
        "ATO-TS identifier".into()
    }
}

/// Whole days from the 1st January 2010.
pub fn date(days: u32) -> String {
    let (mut year, mut left) = (2010, days);
    loop {
        let leap = year % 4 == 0 && (year % 100 != 0 || year % 400 == 0);
        let months = [31, if leap { 29 } else { 28 }, 31, 30, 31, 30, 31, 31, 30, 31, 30, 31];
        for (month, length) in (1..).zip(months) {
            if left < length {
                return format!("{year}-{month:02}-{:02} UTC", left + 1);
            }
            left -= length;
        }
        year += 1;
    }
}

pub fn seconds(_: u32) -> String {
    "seconds of the timestamp, in UTC".into()
}

pub fn counter(_: u32) -> String {
    "N_Packet_Counter of the Journey Profile".into()
}

pub fn journey_status(value: u32) -> String {
    match value {
        0 => "journey accepted".into(),
        1 => "profiles turned down; the unit tells no stamp of them".into(),
        _ => "see SUBSET-126 7.3.6.2".into(),
    }
}

pub fn state(value: u32) -> String {
    let names = STATES.get(value as usize).zip(STATE_NAMES.get(value as usize));
    names.map_or("no state".into(), |(short, name)| format!("{short}, {name}"))
}

fn stands(conditions: u32, k: usize) -> bool {
    conditions >> k & 1 == 1
}

pub fn conditions(value: u32) -> String {
    let lacking: Vec<String> = (0..CONDITIONS.len()).filter(|&k| !stands(value, k)).map(|k| k.to_string()).collect();
    if lacking.is_empty() {
        "all nine stand".into()
    } else {
        format!("lacking {}", lacking.join(" "))
    }
}

/// A line for each of the nine.
pub fn each_condition(value: u32) -> Vec<String> {
    let line = |(k, name)| format!("{k} {}  {name}", if stands(value, k) { "stands " } else { "lacking" });
    CONDITIONS.into_iter().enumerate().map(line).collect()
}
