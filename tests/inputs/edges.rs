//! A long fixed list of calls at the edges that document 01 names and one beside. Each case begins with power on and ends
//! with power off.

use crate::adhesion::slippery_rail;
use crate::creeps::creeps;
use crate::faults::good_events;
use crate::held::held_stops;
use crate::profiles::{base, ending, greatest_values, one_segment, p_journey, passing, record, stop};
use crate::script::{Script, Start, STARTS};
use crate::trackside::trackside_skips;
use crate::trials::all_trials;
use crate::turned_down::loads_turned_down;
use model::calls::Call;
use model::engine::behind_front;
use model::events::{LOAD, POSITION_REPORT, REVOKE, SKIP, UNDEFINED};
use model::packets::TractionBrake;
use model::values::JourneyPoint;

/// Trials P1 to P8 of document 01.
fn trials_p(script: &mut Script) {
    let places = [39_849, 39_850, 40_150, 40_151, 90_000, 90_001, 39_900];
    for place in places {
        script.on().load(&p_journey()).at(place, 0).off();
    }
    script.on().load(&p_journey()).at(20_000, 0).reports(31).configured().off();
}

/// Each kind in each state, also with its other values.
fn kinds_in_states(script: &mut Script) {
    let mut events = good_events();
    events.extend([vec![5, 0], vec![5, 15], vec![5, 30], vec![6, 0], vec![7, 0], vec![7, 1]]);
    for start in STARTS {
        for event in &events {
            script.start(start);
            match event[0] {
                LOAD => script.load(&p_journey()),
                POSITION_REPORT => script.at(20_100, 7),
                SKIP => script.skip(7001),
                REVOKE => script.revoke(7001),
                _ => script.call(Call::of(event.clone())),
            };
            script.off();
        }
    }
}

/// Any two events that move the state, one after the other, from each state between AV and DE.
fn pairs_of_events(script: &mut Script) {
    let moves: Vec<Call> = vec![
        Call::reports(31),
        Call::reports(15),
        Call::reports(30),
        Call::mode(0),
        Call::mode(1),
        Call::lever(0),
        Call::lever(1),
        Call::lever(2),
        Call::press(),
        Call::position(17, 500, 40_000, 0),
    ];
    for start in [Start::Available, Start::Ready, Start::Pressed, Start::Engaged, Start::Disengaging] {
        for first in &moves {
            for second in &moves {
                script.start(start).call(first.clone()).call(second.clone()).call(Call::mode(1)).off();
            }
        }
    }
}

fn places_around(reach: i64) -> Vec<i64> {
    let mut places = vec![-reach - 1, -reach, -reach + 1, -1, 0, 1, reach - 1, reach, reach + 1];
    places.sort();
    places.dedup();
    places
}

/// d about −R, 0 and R for each alignment, with even and odd train length, for reports and for loads; then a creep to R,
/// and the departure.
fn distances(script: &mut Script) {
    for (alignment, length) in
        [(None, 200), (Some(0), 201), (Some(1), 200), (Some(1), 201), (Some(2), 201), (Some(2), 100_000)]
    {
        for (is_stop, skipped, driver) in
            [(true, false, false), (true, true, false), (true, false, true), (false, false, false)]
        {
            let point = JourneyPoint { alignment, stop: is_stop, skipped, stopping: Some(9), ..passing(7001, 0) };
            let profiles = one_segment(&[(point, 400_000, 150)]);
            let shift = behind_front(length, alignment.unwrap_or(0));
            let beyond = 400_000 + shift + 151;
            script.on().length(length);
            for d in places_around(150) {
                let front = (400_000 + i64::from(shift) + d) as u32;
                script.nowhere().load(&profiles);
                if driver {
                    script.skip(7001);
                }
                script.at(front, 0).at(front, 1).load(&profiles).at(front, 0);
                script.at(beyond - 1, 1).at(beyond, 1);
            }
            script.off();
        }
    }
}

/// R 0, 1 and 10,000; speeds 1 and 65,535; no train length.
fn reaches(script: &mut Script) {
    for reach in [0, 1, 10_000] {
        for d in places_around(i64::from(reach)) {
            let profiles = one_segment(&[(stop(7001, 0), 20_000, reach), (ending(passing(7002, 0)), 90_000, 3)]);
            script.on().load(&profiles).at((20_000 + d) as u32, 65_535).at((20_000 + d) as u32, 0);
            script.at((20_000 + d) as u32, 1).at(20_000 + u32::from(reach) + 1, 1).off();
        }
    }
}

/// Several points in one report; the first that does not pass ends it, though later ones would.
fn many_points(script: &mut Script) {
    let points: Vec<(JourneyPoint, u32, u16)> = (0..16)
        .map(|k| (if k % 3 == 0 { stop(7001 + k, 0) } else { passing(7001 + k, 0) }, 1_000 + 10 * k, 5))
        .collect();
    let mut profiles = one_segment(&points);
    script.on();
    for place in [999, 1_006, 1_011, 1_041, 1_150, 1_151, 1_156] {
        script.nowhere().load(&profiles).at(place, 3).at(place, 0).at(1_200, 2);
    }
    profiles.book[0].points[4].reach = 10_000;
    profiles.journey.points[4].stop = true;
    script.nowhere().load(&profiles).at(1_500, 1).at(1_500, 0).at(11_041, 0).load(&profiles).off();
    script.on().load(&greatest_values());
    for k in [0, 1, 20, 39] {
        script.position(1023, 0xFFFF_FF00 + k, 16_777_214, 1).position(1023, 0xFFFF_FF00 + k, 16_777_214, 0);
    }
    script.load(&greatest_values()).length(100_000).position(1023, 0xFFFF_FF00, 0, 0).load(&greatest_values());
    script.position(1023, 0xFFFF_FF00 + 39, 16_777_214, 0).off();
}

/// A load between stop and departure: targeted again, reached again, crept at and departed, also engaged; then one that
/// lacks the stop.
fn loads_at_the_platform(script: &mut Script) {
    let profiles = p_journey();
    let mut skipped = profiles.clone();
    skipped.journey.points[0].skipped = true;
    let mut gone = profiles.clone();
    gone.journey.points.remove(0);
    let mut bare = profiles.clone();
    bare.book.clear();
    for next in [&profiles, &skipped, &gone, &bare] {
        script.on().load(&profiles).at(40_000, 0).load(next).at(40_000, 0).at(40_000, 5).at(40_151, 5);
        script.at(40_100, 0).off();
        script
            .start(Start::Ready)
            .at(40_000, 0)
            .call(Call::press())
            .mode(1)
            .load(next)
            .at(40_000, 0)
            .at(40_000, 5)
            .at(40_151, 5)
            .mode(0)
            .off();
        script
            .start(Start::Engaged)
            .at(40_000, 0)
            .load(next)
            .at(40_000, 0)
            .load(&profiles)
            .at(40_100, 0)
            .at(40_101, 1)
            .at(40_151, 1)
            .off();
        script.on().load(&profiles).at(40_150, 0).load(next).at(40_151, 0).load(&profiles).off();
    }
    for place in [39_999, 40_000, 40_150, 40_151, 90_000, 90_001, 100_000] {
        script.on().at(place, 0).load(&profiles).at(place, 0).off();
    }
}

/// Ends of segments, number 13, zones, segments that are not placed or not booked or not of the journey.
fn segments(script: &mut Script) {
    let base = base();
    script.on().reports(31).configured().load(&base);
    for (nidc, nidsp, length) in
        [(17, 500, 100_000), (17, 501, 50_000), (18, 500, 7), (17, 502, 30_000), (17, 503, 1_000), (17, 504, 9)]
    {
        for offset in [0, 1, 5, 6, 7, 8, length - 1, length, length + 1, 16_777_214, UNDEFINED, UNDEFINED + 1] {
            script.position(nidc, nidsp, offset, 0);
        }
    }
    for offset in [19_999, 20_000, 20_500, 21_000, 21_001] {
        script.position(17, 501, offset, 0).position(17, 501, offset, 1);
    }
    script.load(&base).position(17, 501, 50_000, 0).off();
    lengths_change(script);
    boundary_of_segments(script);
}

/// A held offset beyond its segment's new length; a segment that is no longer booked or no longer in the journey.
fn lengths_change(script: &mut Script) {
    let base = base();
    for length in [50_000, 59_999, 60_000, 60_001] {
        let mut shorter = base.clone();
        shorter.book[1] = record(17, 500, length, &[(7001, 40_000, 150), (7002, 45_000, 0)], &[(45_000, 50_000)]);
        script.on().reports(31).load(&base).position(17, 500, 60_000, 3).load(&shorter).configured();
        script.position(17, 500, 60_000, 0).load(&base).off();
    }
    let mut unbooked = base.clone();
    unbooked.book.remove(1);
    let mut other = base.clone();
    other.journey.segments[0] = (17, 599);
    for next in [&unbooked, &other] {
        script.on().reports(31).load(&base).position(17, 500, 60_000, 3).load(next).position(17, 500, 100_001, 0);
        script.position(17, 502, 30_001, 0).position(17, 502, 7, 0).load(&base).off();
    }
}

/// The held offset lies on a segment that a load leaves booked but not placed, and beyond its new length or not.
fn length_of_unplaced(script: &mut Script) {
    let base = base();
    for length in [20_000, 29_999, 30_000] {
        let mut next = base.clone();
        next.book[2].length = length;
        next.book[2].zones = vec![(0, length)];
        script.on().reports(31).load(&base).position(17, 502, 30_000, 3).load(&next).configured().off();
    }
}

/// A journey through two countries: packet 62 names the point's, 65 the train's, the header the train's.
fn two_countries(script: &mut Script) {
    let mut profiles = base();
    profiles.journey.segments[1] = (18, 501);
    profiles.book[0].nidc = 18;
    script.on().load(&profiles).position(18, 501, 50_000, 9).position(18, 501, 50_000, 0).load(&profiles);
    script.skip(7004).revoke(7004).position(17, 501, 50_000, 0).position(18, 500, 5, 0).load(&profiles).off();
}

/// Every value of the reports, with no journey and in RE, EG and DE.
fn all_reports(script: &mut Script) {
    for start in [Start::Configuration, Start::Ready, Start::Engaged, Start::Disengaging] {
        for reports in 0..32 {
            script.start(start).reports(reports).off();
        }
    }
    script.on();
    script.calls.extend((0..32).map(|reports| Call::reports(reports)));
    script.off();
}

/// The end of one segment and the start of the next are one place.
fn boundary_of_segments(script: &mut Script) {
    let mut profiles = base();
    profiles.book[1].points[2].place = 100_000;
    profiles.book[0].points[1].place = 1;
    for (nidsp, offset) in [(500, 99_999), (500, 100_000), (501, 0), (501, 1), (501, 2), (501, 39_999), (501, 40_000)] {
        script.on().load(&profiles).position(17, nidsp, offset, 4).position(17, nidsp, offset, 0).load(&profiles).off();
    }
}

/// End of Journey as stop, passing point, skipped stop; last and not last. Conditions 2, 3 and 4.
fn ends(script: &mut Script) {
    for end in 0..3 {
        for (is_stop, skipped) in [(true, false), (true, true), (false, false)] {
            let mut points =
                vec![(stop(7001, 0), 20_000, 100), (stop(7002, 0), 40_000, 100), (stop(7003, 0), 60_000, 100)];
            points[end].0 = JourneyPoint { stop: is_stop, skipped, end: true, ..points[end].0.clone() };
            points.iter_mut().enumerate().filter(|(k, _)| *k != end).for_each(|(_, point)| point.0.end = false);
            let profiles = one_segment(&points);
            script.on().reports(31).load(&profiles).at(100, 0).configured().press().mode(1);
            for place in [20_000, 40_000, 60_000] {
                script.at(place, 900).at(place, 0).at(place + 101, 0).at(place + 102, 9);
            }
            script.load(&profiles).off();
        }
    }
}

/// Numbers 14 and 15, both marks of a skip, and skips that are lost.
fn skips(script: &mut Script) {
    let base = base();
    script.on().skip(7001).revoke(7001).load(&base);
    for nidtp in [7001, 7002, 7003, 7004, 7005, 7007, 7008, 6000, 0, u32::MAX] {
        script.revoke(nidtp).skip(nidtp).skip(nidtp).revoke(nidtp).revoke(nidtp);
    }
    script.skip(7001).at(40_000, 0).revoke(7001).at(40_000, 0).skip(7001).revoke(7001).at(40_151, 1);
    script.skip(7001).revoke(7001).skip(7003).position(17, 501, 10_000, 0).revoke(7003).position(17, 501, 10_001, 0);
    script.skip(7003).skip(7004).load(&base).revoke(7004).skip(7007).off();
    script.on().revoke(7007).load(&base).revoke(7007).skip(7001).at(40_001, 0).at(40_000, 0).off();
    script.on().load(&base).skip(7001).at(39_900, 0).revoke(7001).length(100).at(39_900, 0).skip(7001).off();
    script.on().load(&base).at(40_100, 5).length(600).at(40_100, 5).skip(7001).at(40_301, 0).off();
}

/// After power off nothing is left: mode, lever, reports, length, position, skips, press, request, journey.
fn power_cycles(script: &mut Script) {
    let profiles = p_journey();
    for start in STARTS {
        script.start(start).off().on().at(20_000, 5).load(&profiles).configured().reports(31).press().mode(1).off();
    }
    script.on().load(&profiles).off().on().at(100_001, 0).skip(7001).off();
    script.on().length(300).skip(7001).lever(2).mode(1).at(50_000, 5).load(&profiles).off();
    script.on().load(&profiles).at(40_000, 0).off().off().on().on().load(&profiles).off();
}

/// Speed rises from 0: packet 68 of its own, not while EG; not from 1 to 2.
fn speeds(script: &mut Script) {
    for start in STARTS {
        script.start(start).at(20_000, 0).at(20_000, 1).at(20_000, 2).at(20_000, 0).at(20_000, 65_535);
        script.nowhere().position(17, 500, UNDEFINED, 3).at(20_000, 0).off();
    }
}

/// The turns that document 01 names as false.
fn false_turns(script: &mut Script) {
    script.start(Start::Engaged).reports(30).reports(31).at(20_000, 5).mode(0).off();
    script.start(Start::Engaged).lever(1).lever(0).lever(2).lever(0).lever(1).lever(0).mode(0).mode(1).off();
    script.start(Start::Engaged).at(40_000, 0).lever(1).lever(0).mode(0).press().mode(1).off();
    script.start(Start::Engaged).at(95_000, 50).off();
}

/// Q-1's four numbers and the jumps over a range; then, from a request that one range alone holds, each border and one
/// beside, in EG and in DE, with either sign.
fn traction_ranges(script: &mut Script) {
    script.start(Start::Engaged).traction(20, 0).traction(27, 0).traction(28, 0).traction(23, 0).traction(22, 0);
    script.traction(75, 0).traction(98, 0).traction(75, 0).traction(80, 0).traction(92, 0).traction(25, 0).off();
    for start in [Start::Engaged, Start::Disengaging] {
        script.start(start);
        for only in [0, 10, 50, 80, 98] {
            for size in [0, 1, 22, 23, 27, 28, 72, 73, 77, 78, 90, 91, 95, 96, 100] {
                script.traction(only, 0).traction(-size, 0).traction(-only, 0).traction(size, 0);
            }
        }
        script.off();
    }
}

/// The first request writes, whatever its range. Of the content only Q_ATO_SupTB counts, and all its bits; where it
/// changes, the range is that of the request all the same.
fn traction_content(script: &mut Script) {
    for start in [Start::Engaged, Start::Disengaging] {
        for request in [0, 10, 25, 50, 75, 80, 93, 98, 100, -100] {
            script.start(start).traction(request, 0).traction(request, 0).off();
        }
        script.start(start).traction(50, 0);
        for bit in 0..8 {
            script.traction(50, 1 << bit).traction(-50, 1 << bit).traction(50, 255).traction(50, 255 ^ 1 << bit);
        }
        for (m_ato_trabrrq, m_ato_locobrrq, m_ato_rtbrq) in [(1, 0, 0), (0, 255, 0), (0, 0, 1), (255, 1, 65_535)] {
            let content = TractionBrake { m_ato_trabrrq, m_ato_locobrrq, q_ato_suptb: 127, m_ato_rtbrq };
            script.call(Call::traction(50, content));
        }
        script.traction(25, 127).traction(25, 128).traction(28, 128).traction(75, 0).traction(72, 0).off();
    }
}

/// What was remembered is kept into DE, and forgotten where EG is entered and at power off: the same request writes
/// again, and takes the lowest range. What comes in other states is not remembered, also with a press pending.
fn traction_memory(script: &mut Script) {
    for start in STARTS {
        script.start(start).traction(75, 1).traction(-100, 1).traction(0, 2).mode(1).traction(75, 2);
        script.traction(75, 2).at(20_000, 3).traction(75, 2).reports(15).traction(75, 2).lever(1).traction(80, 2).off();
    }
    for leave in [Call::mode(0), Call::lever(2), Call::position(17, 500, 40_000, 0), Call::reports(15)] {
        script.start(Start::Engaged).traction(80, 5).call(leave.clone()).traction(92, 5).mode(0).lever(0);
        script.traction(50, 5).reports(31).traction(80, 6).press().traction(75, 5).mode(1).traction(80, 5);
        script.traction(75, 5).call(leave).mode(0).lever(0).reports(31).press().mode(1).traction(75, 5);
        script.traction(72, 5).call(Call::fault()).traction(72, 5).off();
    }
    script.start(Start::Engaged).traction(98, 5).load(&p_journey()).traction(93, 5).length(10).traction(93, 5).off();
}

/// What the player alone decides: a load of wrong length still brings its profiles; a call with no event.
fn odd_input(script: &mut Script) {
    let good = p_journey().load();
    script.on().call(Call { event: vec![11, 1], ..good.clone() }).call(Call::of(vec![])).call(good);
    script.call(Call { event: vec![11], ..Call::default() }).off();
}

pub fn all_edges() -> Vec<Call> {
    let mut script = Script::default();
    let cases: [fn(&mut Script); 26] = [
        trials_p,
        kinds_in_states,
        pairs_of_events,
        distances,
        reaches,
        many_points,
        creeps,
        loads_at_the_platform,
        segments,
        length_of_unplaced,
        two_countries,
        all_reports,
        ends,
        skips,
        power_cycles,
        speeds,
        false_turns,
        traction_ranges,
        traction_content,
        traction_memory,
        odd_input,
        loads_turned_down,
        held_stops,
        trackside_skips,
        slippery_rail,
        |script| script.calls.extend(all_trials().into_iter().map(|trial| trial.call)),
    ];
    cases.iter().for_each(|case| case(&mut script));
    script.calls
}
