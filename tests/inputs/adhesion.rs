//! The edges of slippery rail (document 02, Q-7). Each case begins with power on and ends with power off. That an event
//! is 16 with a byte too little for its packet 64, and not with just enough, is tried with each call of the lists
//! (`model::checked`), as is, against the literal rules, which rows the engine shows.

use crate::constraints::{changed, rows, EACH_BYTE, GREATEST, PLACE_MOST};
use crate::profiles::{base, one_segment, p_journey, passing, stop};
use crate::script::{Script, Start, STARTS};
use model::adhesion::{Constraint, CONSTRAINTS_MOST, ROW};
use model::calls::Call;
use model::events::{ADHESION, UNDEFINED};

/// On segment (17, 500).
fn row(start: u32, end: u32) -> Constraint {
    Constraint { nidc: 17, nidsp: 500, category: 1, range: 2, start, end }
}

/// The first, a middle and the last of 1, 2, 5 and 31 rows.
fn places() -> Vec<(usize, usize)> {
    let places = |count| [(count, 0), (count, count / 2), (count, count - 1)];
    let mut places = [1, 2, 5, CONSTRAINTS_MOST].map(places).concat();
    places.dedup();
    places
}

/// Each count after each: more rows, fewer, none; and the same ones again.
fn counts(script: &mut Script) {
    const COUNTS: [usize; 5] = [0, 1, 2, 30, CONSTRAINTS_MOST];
    for old in COUNTS {
        script.on();
        for new in COUNTS {
            script.adhesion(&rows(old)).adhesion(&rows(new));
        }
        script.off();
    }
}

/// Each byte of a row by itself; each field at its ends.
fn fields(script: &mut Script) {
    let blank = Constraint::default();
    script.on().adhesion(&[EACH_BYTE]).adhesion(&[GREATEST, EACH_BYTE]).adhesion(&[blank; 3]);
    script.adhesion(&[GREATEST; CONSTRAINTS_MOST]).adhesion(&[EACH_BYTE, GREATEST, blank]).off();
}

/// 1: an event of one byte; a byte or a row more or less than the count tells, also of a count over 31; another count
/// than there are rows. What is shown stays.
fn lengths(script: &mut Script) {
    script.on().adhesion(&rows(2)).call(Call::of(vec![ADHESION]));
    for count in [1, 2, 31, 32, 255] {
        script.call(Call::of(vec![ADHESION, count]));
    }
    for count in [0, 1, 2, 31, 32, 255] {
        let event = Call::adhesion(&rows(count)).event;
        for size in [event.len() - 1, event.len() - ROW.min(event.len() - 1)] {
            script.call(Call::of(event[..size].to_vec()));
        }
        script.call(Call::of([&event[..], &[0]].concat())).call(Call::of([&event[..], &[0; ROW]].concat()));
        for told in [event[1].wrapping_sub(1), event[1].wrapping_add(1)] {
            script.call(Call::of([&[ADHESION, told], &event[2..]].concat()));
        }
    }
    script.adhesion(&rows(1)).off();
}

/// 2: a count over 31 of fitting length, whatever the rows.
fn counts_beyond(script: &mut Script) {
    script.on().adhesion(&rows(2));
    for count in [32, 33, 254, 255] {
        script.adhesion(&rows(count)).adhesion(&vec![row(1, 0); count]).adhesion(&vec![Constraint::default(); count]);
    }
    script.adhesion(&rows(31)).off();
}

/// 2: NID_C, start and end one above their greatest values, and far above; not at them. A start beyond its range
/// exceeds its end, or the end is beyond its range as well: 2 all the same.
fn ranges(script: &mut Script) {
    for (count, k) in places() {
        script.on().adhesion(&rows(3));
        for nidc in [1023, 1024, 32_785, 65_535] {
            script.adhesion(&changed(count, k, |row| row.nidc = nidc));
        }
        for end in [PLACE_MOST, PLACE_MOST + 1, u32::MAX] {
            script.adhesion(&changed(count, k, |row| row.end = end));
            script.adhesion(&changed(count, k, |row| (row.start, row.end) = (end, end)));
            script.adhesion(&changed(count, k, |row| row.start = end));
        }
        script.off();
    }
}

/// 21: start = end + 1, not start = end; far apart; where single bytes fall though the number does not, and the other
/// way round.
fn reversed(script: &mut Script) {
    const PAIRS: [(u32, u32); 10] = [
        (500, 500),
        (501, 500),
        (500, 501),
        (1, 0),
        (0, 0),
        (PLACE_MOST, 0),
        (PLACE_MOST, PLACE_MOST - 1),
        (256, 255),
        (255, 256),
        (65_536, 65_535),
    ];
    for (count, k) in places() {
        script.on().adhesion(&rows(3));
        for (start, end) in PAIRS {
            script.adhesion(&changed(count, k, |row| (row.start, row.end) = (start, end)));
        }
        let mut all = rows(count);
        all.iter_mut().for_each(|row| row.start = row.end + 1);
        script.adhesion(&all).off();
    }
}

/// 1 before 2 before 21: a value beyond its range in a row behind the reversed one, before it and in it; a length that
/// does not fit.
fn several_faults(script: &mut Script) {
    let faults: [fn(&mut Constraint); 3] =
        [|row| row.nidc = 1024, |row| row.start = PLACE_MOST + 1, |row| row.end = PLACE_MOST + 1];
    script.on().adhesion(&rows(2));
    for fault in faults {
        for (reversed, beyond) in [(0, 1), (0, 30), (30, 0), (29, 30), (7, 7)] {
            let mut rows = rows(31);
            (rows[reversed].start, rows[reversed].end) = (7, 6);
            fault(&mut rows[beyond]);
            let event = Call::adhesion(&rows).event;
            script.call(Call::of([&event[..], &[0]].concat())).call(Call::of(event));
        }
    }
    script.adhesion(&[row(7, 6), row(6, 7)]).adhesion(&rows(1)).off();
}

/// In each state: NP refuses it by 3 and FA by 5, behind 1, 2 and 21. Elsewhere it is taken, and what follows is as if
/// it had not come: a press that is pending engages, EG and the AD request stay, a start from speed 0 writes its 68.
fn in_each_state(script: &mut Script) {
    let wrong = Call::of(vec![ADHESION, 1]);
    for start in STARTS {
        script.start(start).adhesion(&rows(2)).call(wrong.clone()).adhesion(&[row(0, PLACE_MOST + 1)]);
        script.adhesion(&[row(1, 0)]).adhesion(&[]).adhesion(&rows(31)).mode(1).adhesion(&rows(1)).at(20_000, 7);
        script.adhesion(&rows(2)).at(20_001, 7).lever(1).adhesion(&[]).reports(15).adhesion(&[row(0, 0)]).off();
    }
}

/// The header is that of the engine: no journey, a journey in force, another country, a speed, the offset undefined.
fn headers(script: &mut Script) {
    script.on().adhesion(&rows(1)).position(1023, 7, 5, 3).adhesion(&rows(1)).load(&base()).adhesion(&rows(1));
    script.position(18, 500, 5, 65_535).adhesion(&[]).nowhere().adhesion(&rows(2)).off();
    script.on().adhesion(&[]).off();
}

/// Nothing but a later kind 15 and power off changes the rows: each other event once, loads of other journeys among
/// them, also turned down, and kinds 15 that are refused.
fn kept(script: &mut Script) {
    let other = one_segment(&[(passing(7009, 0), 90_000, 0)]);
    for count in [1, CONSTRAINTS_MOST] {
        script.on().adhesion(&rows(count)).load(&p_journey()).length(20).at(20_000, 0).skip(7001).revoke(7001);
        script.reports(31).configured().press().mode(1).traction(50, 1).load(&other).turn_down(&base()).lever(2);
        script.adhesion(&[row(1, 0)]).adhesion(&rows(32)).call(Call::of(vec![ADHESION, 0, 0])).at(20_000, 0).on();
        script.call(Call::fault()).adhesion(&[]).load(&base()).off();
    }
}

/// Gone at power off, from CO and from FA: after power on there are none until the next kind 15 is taken.
fn power_off(script: &mut Script) {
    let mut many = rows(CONSTRAINTS_MOST);
    many.reverse();
    for last in [Call::reports(31), Call::fault()] {
        script.on().adhesion(&many).call(last).off().adhesion(&rows(2)).on().load(&base()).adhesion(&[row(1, 0)]);
        script.adhesion(&rows(1)).off().on().adhesion(&[]).off();
    }
}

/// At a stop that is reached and held, standing and in a creep, with the position lost, also in EG: it stays so, a
/// press is 20 as before, and the departure is one. Driver skips and what is remembered of requests stay.
fn at_the_platform(script: &mut Script) {
    let mut holding = p_journey();
    holding.journey.points[0].held = true;
    script.start_with(Start::Ready, &holding).at(40_000, 0).adhesion(&rows(2)).press();
    for (offset, speed) in [(40_150, 5), (39_000, 0), (UNDEFINED, 5), (40_151, 0)] {
        script.at(offset, speed).adhesion(&rows(1)).press();
    }
    script.at(40_151, 5).adhesion(&[]).press().off();
    script.start(Start::Engaged).at(40_000, 0).adhesion(&[]).mode(0).press().mode(1).adhesion(&rows(2)).at(40_100, 0);
    script.adhesion(&rows(1)).traction(75, 1).adhesion(&rows(2)).traction(77, 1).at(40_151, 5).adhesion(&[]).off();
    let two = one_segment(&[(stop(7001, 0), 40_000, 150), (stop(7002, 0), 60_000, 150)]);
    script.start_with(Start::Engaged, &two).skip(7001).adhesion(&rows(1)).at(40_000, 0).revoke(7001).at(40_000, 0);
    script.off();
}

/// All of them.
pub fn slippery_rail(script: &mut Script) {
    let cases: [fn(&mut Script); 12] = [
        counts,
        fields,
        lengths,
        counts_beyond,
        ranges,
        reversed,
        several_faults,
        in_each_state,
        headers,
        kept,
        power_off,
        at_the_platform,
    ];
    cases.iter().for_each(|case| case(script));
}
