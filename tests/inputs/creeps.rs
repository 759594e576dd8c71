//! The edges of creeping at a platform (document 02, Q-3): what a train does at a stop that it has reached. Each case
//! begins with power on and ends with power off.

use crate::profiles::{base, ending, one_segment, p_journey, passing, stop};
use crate::script::{Script, Start, STARTS};
use model::calls::Call;
use model::engine::behind_front;
use model::events::UNDEFINED;
use model::values::JourneyPoint;

/// A departure wants all three: speed above 0, a known position, d > R. With one of them lacking the stop stays
/// reached, and the point behind it is not passed. A stop that was departed is not reached again.
fn departures(script: &mut Script) {
    let profiles = p_journey();
    let at_rest = [40_151, 90_001, 100_000].map(|offset| Call::position(17, 500, offset, 0));
    let unknown = [Call::position(17, 500, UNDEFINED, 1), Call::position(1, 1, 90_001, 9)];
    let not_beyond = [Call::position(17, 500, 40_150, 1), Call::position(17, 500, 40_000, 65_535)];
    for stays in [&at_rest[..], &unknown, &not_beyond].concat() {
        script.on().load(&profiles).at(40_000, 0).call(stays.clone()).nowhere().call(stays);
        script.at(40_151, 1).at(40_152, 1).at(40_000, 0).at(90_002, 4).off();
    }
    script.on().load(&profiles).at(40_000, 0).at(40_151, 65_535).at(40_150, 0).off();
    script.on().load(&profiles).at(40_000, 0).at(90_001, 1).off();
}

/// Within R, both ways, to either end of it, from R 0 on. A cm behind it nothing changes, a cm beyond it the train
/// departs.
fn within_reach(script: &mut Script) {
    for reach in [0, 1, 150, 10_000] {
        let profiles = one_segment(&[(stop(7001, 0), 20_000, reach), (ending(passing(7002, 0)), 90_000, 3)]);
        let (far, near) = (20_000 + u32::from(reach), 20_000 - u32::from(reach));
        for speed in [1, 65_535] {
            script.on().load(&profiles).at(20_000, 0).at(20_000, speed).at(far, speed).at(near, speed).at(far, 0);
            script.at(near - 1, speed).at(near, 0).at(far, speed).at(far + 1, speed).at(20_000, 0).off();
        }
    }
}

/// Behind −R, moving and standing, back to the journey's start; and from there at once beyond R.
fn behind_reach(script: &mut Script) {
    let profiles = p_journey();
    script.on().load(&profiles).at(39_850, 0).at(39_849, 1).at(39_849, 0).at(39_850, 1).at(0, 1).at(0, 0);
    script.at(40_150, 1).at(40_151, 1).off();
    script.on().load(&profiles).at(39_850, 0).at(39_849, 9).at(40_151, 9).off();
    script.on().load(&profiles).at(40_150, 0).at(0, 9).at(0, 0).at(90_001, 9).off();
}

/// The position is not known: undefined, of no journey segment, of one that is not booked, of those behind it that are
/// booked but not placed, or it is refused. However far the train may be, nothing passes until it is known again.
fn position_lost(script: &mut Script) {
    let base = base();
    for (nidc, nidsp, offset) in [
        (17, 500, UNDEFINED),
        (17, 599, 90_000),
        (18, 501, 50_000),
        (18, 500, 90_000),
        (17, 502, 30_000),
        (17, 503, 1_000),
        (17, 500, 100_001),
    ] {
        let lost = |speed| Call::position(nidc, nidsp, offset, speed);
        script.on().load(&base).at(40_000, 0).call(lost(1)).call(lost(0)).call(lost(9)).at(40_150, 9).call(lost(9));
        script.at(40_150, 0).call(lost(1)).position(17, 501, 10_001, 9).off();
    }
}

/// Speed 0 beyond R: the stop stays reached, and of the points behind it none is passed and none reached, wherever they
/// are. The first moving report departs and passes those that have d > margin.
fn standing_beyond(script: &mut Script) {
    let base = base();
    script.on().load(&base).at(40_000, 0).at(40_151, 0).at(90_001, 0).position(17, 501, 50_000, 0);
    script.position(17, 501, 50_000, 1).position(17, 501, 50_000, 0).off();
    let mut points = vec![(stop(7001, 0), 1_000, 10_000)];
    points.extend((1..16).map(|k| (passing(7001 + k, 0), 1_000 + 500 * k, 0)));
    let profiles = one_segment(&points);
    script.on().load(&profiles).at(1_000, 0).at(50_000, 0).nowhere().at(50_000, 0).at(50_000, 1).off();
}

/// A second stop and a passing point within R of the first: a halt at the second reaches nothing, and one report leaves
/// all three.
fn stops_within_reach(script: &mut Script) {
    let points = [(stop(7001, 0), 20_000, 10_000), (stop(7002, 0), 25_000, 150), (passing(7003, 0), 28_000, 0)];
    let profiles = one_segment(&points);
    script.on().load(&profiles).at(20_000, 0).at(25_000, 7).at(25_000, 0).at(28_001, 7).at(30_000, 7);
    script.at(30_001, 7).off();
    script.on().load(&profiles).at(20_000, 0).at(25_000, 0).load(&profiles).at(30_001, 7).off();
    script.on().load(&profiles).at(20_000, 0).at(24_000, 7).skip(7002).at(25_001, 0).at(30_001, 0).at(30_001, 7).off();
}

/// d by the train length as it stands at the report, for the middle and for the rear: with a longer train what was
/// beyond R is so no longer; with a shorter one the train departs from where it stood.
fn length_changes(script: &mut Script) {
    for alignment in [1, 2] {
        let point = JourneyPoint { alignment: Some(alignment), ..stop(7001, 0) };
        let profiles = one_segment(&[(point, 40_000, 150), (ending(passing(7002, 0)), 90_000, 0)]);
        let front = |length: u32, d: u32| 40_000 + behind_front(length, alignment) + d;
        script.on().length(200).load(&profiles).at(front(200, 0), 0).length(1_001).at(front(200, 151), 1);
        script.at(front(1_001, 150), 1).at(front(1_001, 151), 1).off();
        let stand = front(1_001, 0);
        script.on().length(1_001).load(&profiles).at(stand, 0).length(199).at(stand, 0).length(1_001).at(stand, 1);
        script.length(199).at(stand, 1).off();
        script.on().length(1_001).load(&profiles).at(stand, 0).length(199).at(front(199, 150), 1);
        script.at(front(199, 151), 1).off();
    }
}

/// A skip of the reached stop and its revocation are 15 wherever the train creeps; skips of a later stop are taken
/// meanwhile, and count when the train has departed.
fn skips_meanwhile(script: &mut Script) {
    let points = [(stop(7001, 0), 40_000, 150), (stop(7002, 0), 60_000, 10_000), (passing(7003, 0), 90_000, 0)];
    let profiles = one_segment(&points);
    script.on().load(&profiles).at(40_000, 0).skip(7001).revoke(7001);
    for (offset, speed) in [(40_150, 1), (39_000, 1), (39_000, 0), (UNDEFINED, 4), (90_001, 0)] {
        script.at(offset, speed).skip(7001).revoke(7001).skip(7002).skip(7002).revoke(7002).revoke(7002).skip(7003);
    }
    script.skip(7002).at(60_001, 0).at(60_001, 5).skip(7001).revoke(7001).revoke(7002).off();
    script.on().load(&profiles).at(40_000, 0).skip(7002).at(60_001, 0).revoke(7002).at(60_001, 5).at(60_001, 0).off();
    script.on().load(&profiles).skip(7001).at(40_000, 0).revoke(7001).at(40_000, 0).at(40_150, 1).skip(7001).off();
}

/// A load in a creep: the stop is targeted again and, at the next halt within R, reached again, with status 1 once
/// more. Beyond R it is put behind by the load, and after the load passed like any other.
fn loads_in_a_creep(script: &mut Script) {
    let profiles = p_journey();
    for (offset, speed) in [(40_150, 5), (39_849, 5), (39_849, 0), (UNDEFINED, 5), (40_151, 0)] {
        script.on().load(&profiles).at(40_000, 0).at(offset, speed).load(&profiles).at(40_100, 5).at(40_100, 0);
        script.at(40_150, 5).load(&profiles).at(40_151, 5).off();
    }
    script.start(Start::Engaged).at(40_000, 0).mode(0).press().mode(1).at(40_100, 5).load(&profiles).at(40_100, 0);
    script.mode(0).press().mode(1).at(39_000, 5).load(&profiles).at(39_000, 0).at(40_151, 5).off();
}

/// The held offset is beyond the segment's new length: it is not known, so the load targets the stop, though the train
/// stood beyond its R; what is reported beyond that length is refused.
fn held_offset(script: &mut Script) {
    let points = [(stop(7001, 0), 40_000, 150), (ending(passing(7002, 0)), 45_000, 0)];
    let long = one_segment(&points);
    let mut short = long.clone();
    short.book[0].length = 50_000;
    script.on().reports(31).load(&long).at(40_000, 0).at(39_000, 5).at(60_000, 0).load(&short).configured();
    script.at(60_000, 1).at(40_000, 0).at(60_000, 1).at(50_001, 1).at(50_000, 0).at(50_000, 1).off();
}

/// Over the end of a segment: d counts from the journey's start.
fn across_segments(script: &mut Script) {
    let mut profiles = base();
    profiles.book[1].points[2].place = 100_000;
    profiles.journey.points[1].stop = true;
    for (nidsp, offset) in [(500, 100_000), (501, 0), (501, 150)] {
        script.on().load(&profiles).position(17, nidsp, offset, 0).position(17, 501, 150, 3).at(99_849, 3);
        script.at(99_849, 0).position(17, 501, 151, 0).position(17, 501, 151, 3).at(100_000, 0).off();
    }
}

/// The last placed stop. Behind it the target is not placed (condition 4). Where R goes to the end of the last placed
/// segment or further, no position is both known and beyond R: it stays reached, also at that end and on what follows.
fn last_placed(script: &mut Script) {
    let mut profiles = base();
    for (place, reach) in [(40_000, 150), (49_849, 150), (49_850, 150), (50_000, 0), (50_000, 10_000)] {
        (profiles.book[0].points[0].place, profiles.book[0].points[0].reach) = (place, reach);
        script.on().load(&profiles).position(17, 501, place, 0).position(17, 501, 50_000, 9).position(18, 500, 5, 9);
        script.position(17, 502, 30_000, 9).position(17, 501, 50_000, 0).load(&profiles).off();
    }
}

/// Power off in a creep, and the same stop reached anew.
fn power_off_in_a_creep(script: &mut Script) {
    let profiles = p_journey();
    for (offset, speed) in [(40_150, 5), (39_000, 5), (UNDEFINED, 5), (90_001, 0)] {
        script.on().load(&profiles).at(40_000, 0).at(offset, speed).off();
        script.on().at(offset, speed).load(&profiles).at(40_000, 5).at(40_000, 0).at(40_151, 5).off();
    }
}

/// Starts from speed 0 at the reached stop, in each state that there can be then: each writes packet 68, and while the
/// train creeps nothing else is written.
fn starts(script: &mut Script) {
    for start in STARTS {
        script.start(start).at(40_000, 0);
        for offset in [40_000, 40_150, 39_000] {
            script.at(offset, 1).at(offset, 2).at(offset, 0);
        }
        script.nowhere().position(17, 500, UNDEFINED, 3).nowhere().at(40_151, 0).at(40_151, 1).off();
    }
}

/// The stop reached ends EG. Engaged again at it, the train creeps: a start writes no 68, and a halt does not end EG
/// again.
fn creep_engaged(script: &mut Script) -> &mut Script {
    script.start(Start::Engaged).at(40_000, 0).press().mode(0).press().mode(1);
    script.at(40_100, 5).at(40_100, 0).at(39_000, 5).at(39_000, 0).at(40_150, 1)
}

/// After that: a departure in EG; the position lost, thus DE, where a start writes 68; taken over and engaged anew;
/// train conditions lost.
fn engaged(script: &mut Script) {
    creep_engaged(script).at(40_151, 0).at(40_151, 1).off();
    creep_engaged(script).position(17, 500, UNDEFINED, 5).nowhere().at(40_000, 5).at(40_000, 0).at(40_000, 5);
    script.at(40_151, 5).off();
    creep_engaged(script).lever(2).at(40_100, 0).at(40_100, 5).lever(0).mode(0).press().mode(1).at(90_001, 5).off();
    creep_engaged(script).reports(15).at(40_000, 0).at(40_000, 5).at(40_151, 5).reports(31).off();
}

/// The End of Journey as the stop crept at, with and without a point behind it: conditions 2 and 3, Q_EOJ_REACHED.
fn end_of_journey(script: &mut Script) {
    for later in [None, Some((passing(7002, 0), 90_000, 0)), Some((stop(7002, 0), 40_100, 150))] {
        let points: Vec<(JourneyPoint, u32, u16)> =
            [(ending(stop(7001, 0)), 40_000, 150)].into_iter().chain(later).collect();
        let profiles = one_segment(&points);
        script.on().reports(31).load(&profiles).at(39_000, 9).configured().press().mode(1).at(40_000, 0).at(40_150, 1);
        script.at(39_849, 1).nowhere().at(90_001, 0).at(40_151, 1).at(40_151, 0).at(90_001, 1).load(&profiles).off();
    }
}

/// All of them.
pub fn creeps(script: &mut Script) {
    let cases: [fn(&mut Script); 16] = [
        departures,
        within_reach,
        behind_reach,
        position_lost,
        standing_beyond,
        stops_within_reach,
        length_changes,
        skips_meanwhile,
        loads_in_a_creep,
        held_offset,
        across_segments,
        last_placed,
        power_off_in_a_creep,
        starts,
        engaged,
        end_of_journey,
    ];
    cases.iter().for_each(|case| case(script));
}
