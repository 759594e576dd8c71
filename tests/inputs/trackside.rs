//! The edges of trackside skips that a load gives and takes back (document 02, Q-6). Each case begins with power on and
//! ends with power off. That a load is 16 a byte short of its packets, and not with just enough, is tried with each
//! call of the lists (`model::checked`).

use crate::profiles::{base, held, one_segment, passing, skipped, stop, Profiles};
use crate::script::{Script, Start, STARTS};
use crate::sizes::largest;
use model::calls::Call;
use model::events::UNDEFINED;
use model::values::JourneyPoint;

/// Stops 7001, 7002, 7003 at 30,000, 40,000 and 60,000, and 7009 at 90,000, the end: trackside skips those named.
fn skipping(names: &[u32]) -> Profiles {
    let point = |nidtp| {
        let skips = names.contains(&nidtp);
        JourneyPoint { skipped: skips, ..stop(nidtp, 0) }
    };
    one_segment(&[
        (point(7001), 30_000, 150),
        (point(7002), 40_000, 150),
        (point(7003), 60_000, 150),
        (passing(7009, 0), 90_000, 0),
    ])
}

/// The same with one of the points changed.
fn changed(names: &[u32], k: usize, change: impl Fn(&mut JourneyPoint)) -> Profiles {
    let mut profiles = skipping(names);
    change(&mut profiles.journey.points[k]);
    profiles
}

/// One journey after the other: what the second changes, and what it changes back.
fn and_back(script: &mut Script, one: &Profiles, other: &Profiles) {
    script.on().load(one).load(other).load(one).load(one).off();
}

/// Each set of three stops after each: gained and lost, alone and together, and nothing where they are equal.
fn sets(script: &mut Script) {
    let journey = |set: u32| {
        let names: Vec<u32> = (0..3).filter(|k| set >> k & 1 == 1).map(|k| 7001 + k).collect();
        skipping(&names)
    };
    script.on();
    for old in 0..8 {
        for new in 0..8 {
            script.load(&journey(old)).load(&journey(new));
        }
    }
    script.off();
}

/// The new journey has the points in another order, and others between them: what stands at the old index is another.
fn orders(script: &mut Script) {
    let old = skipping(&[7001, 7003]);
    for order in [[0, 1, 2], [0, 2, 1], [1, 0, 2], [1, 2, 0], [2, 0, 1], [2, 1, 0]] {
        let points = [stop(7001, 0), skipped(stop(7002, 0)), stop(7003, 0)];
        let places = [10_000, 50_000, 70_000];
        let mut new: Vec<(JourneyPoint, u32, u16)> =
            order.into_iter().zip(places).map(|(k, place)| (points[k].clone(), place, 5)).collect();
        and_back(script, &old, &one_segment(&new));
        new.insert(0, (skipped(stop(7004, 0)), 5_000, 150));
        new.insert(2, (stop(7000, 0), 20_000, 150));
        and_back(script, &old, &one_segment(&new));
    }
}

/// Other segments, other countries, not in the book, placed no longer: the point's name alone counts. The front is in a
/// third country or not known.
fn segments(script: &mut Script) {
    let old = skipping(&[7002]);
    let mut abroad = skipping(&[7001, 7003]);
    (abroad.journey.segments[0].0, abroad.book[0].nidc) = (18, 18);
    let mut beside = skipping(&[7001, 7003]);
    (beside.journey.segments[0].1, beside.book[0].nidsp) = (501, 501);
    let mut behind = skipping(&[7001, 7003]);
    behind.journey.segments = vec![(1023, 7), (18, 499), (17, 500)];
    behind.journey.points.iter_mut().for_each(|point| point.segment = 2);
    let bare = Profiles { book: vec![], ..skipping(&[7001, 7003]) };
    for new in [&abroad, &beside, &behind, &bare] {
        and_back(script, &old, new);
        script.on().load(&old).position(1023, 7, 5, 3).load(new).load(&old);
        script.at(35_000, 3).load(new).load(&old).load(&abroad).off();
    }
    let mut base = base();
    script.on().load(&base);
    for k in [3, 6, 7] {
        base.journey.points[k].skipped = true;
        script.load(&base);
    }
    base.journey.points.iter_mut().for_each(|point| point.skipped = false);
    script.position(17, 501, 20_000, 0).load(&base).off();
}

/// The new point's alignment, and stopping data 0 whatever either point has.
fn fields(script: &mut Script) {
    for (old, new) in [(None, Some(1)), (Some(1), Some(2)), (Some(2), Some(0)), (Some(2), None), (Some(0), Some(2))] {
        for (before, after) in [(None, Some(127)), (Some(127), None), (Some(5), Some(9))] {
            let one = changed(&[], 1, |point| (point.alignment, point.stopping) = (old, before));
            let other = changed(&[7002], 1, |point| (point.alignment, point.stopping) = (new, after));
            script.on().load(&one).load(&other).load(&one).off();
        }
    }
}

/// A passing point that becomes a skipped stop gained it, a skipped stop that becomes a passing point lost it; stop or
/// passing point, held or not, otherwise says nothing.
fn kinds_of_points(script: &mut Script) {
    let kinds = [passing(7002, 0), stop(7002, 0), skipped(stop(7002, 0)), held(stop(7002, 0))];
    let kinds = [&kinds[..], &[held(skipped(stop(7002, 0)))]].concat();
    script.on();
    for old in &kinds {
        for new in &kinds {
            script.load(&changed(&[7001], 1, |point| *point = old.clone()));
            script.load(&changed(&[7003], 1, |point| *point = new.clone()));
        }
    }
    script.off();
}

/// A point that one of the journeys lacks is not told of, nor are names beside it; and of three journeys the first says
/// nothing of the third.
fn lacking(script: &mut Script) {
    let all = skipping(&[7001, 7002, 7003]);
    for k in 0..3 {
        let mut fewer = all.clone();
        fewer.journey.points.remove(k);
        and_back(script, &all, &fewer);
        let mut renamed = all.clone();
        renamed.journey.points[k].nidtp = 7257;
        renamed.book[0].points[k].nidtp = 7257;
        and_back(script, &all, &renamed);
        fewer.journey.points.iter_mut().for_each(|point| point.skipped = false);
        script.on().load(&all).load(&fewer).load(&skipping(&[])).load(&fewer).load(&all).off();
    }
    script.on().load(&all).load(&one_segment(&[(passing(7009, 0), 90_000, 0)])).load(&skipping(&[])).load(&all).off();
}

/// The load puts points behind: those are told of too. Then reports, as after any load.
fn put_behind(script: &mut Script) {
    let (one, other) = (skipping(&[7001, 7003]), skipping(&[7002]));
    for (offset, speed) in [(0, 0), (30_000, 0), (30_151, 5), (40_001, 0), (60_151, 900), (90_001, 0), (UNDEFINED, 0)] {
        script.on().length(20).load(&one).at(offset, speed).load(&other).load(&one).at(offset, speed);
        script.load(&other).at(40_001, 9).at(90_001, 9).off();
    }
}

/// Q_EOJ_REACHED is that of the new journey after the load: the End of Journey ahead, put behind, another than before,
/// reached before and targeted now, itself skipped or no longer.
fn ends_of_journey(script: &mut Script) {
    let ends_at = |names: &[u32], end: usize| {
        let mut profiles = skipping(names);
        profiles.journey.points.iter_mut().enumerate().for_each(|(k, point)| point.end = k == end);
        profiles
    };
    for old in 0..3 {
        for new in 0..3 {
            let (one, other) = (ends_at(&[7001, 7003], old), ends_at(&[7002], new));
            script.on().reports(31).load(&one).at(40_000, 0).configured().load(&other).at(40_000, 0).load(&one);
            script.at(60_001, 0).load(&other).at(60_000, 0).load(&one).off();
            script.on().load(&other).at(30_000, 0).load(&one).at(30_001, 0).load(&other).off();
        }
    }
}

/// A hold that ends with the load: 4 stands before 7 and 8, whatever the new journey's order; where that very stop is
/// skipped now, 4 and 7 tell of it. A hold that is kept has no 4.
fn at_a_held_stop(script: &mut Script) {
    let hold = |point: &mut JourneyPoint| (point.held, point.alignment) = (true, Some(2));
    let old = changed(&[7001, 7003], 1, hold);
    let mut gone = skipping(&[7001]);
    gone.journey.points.remove(1);
    let mut abroad = skipping(&[7002, 7003]);
    (abroad.journey.segments[0].0, abroad.book[0].nidc) = (18, 18);
    let keeps = changed(&[7002], 1, |point| point.held = true);
    let passed = changed(&[], 1, |point| point.stop = false);
    let elsewhere = changed(&[7002], 2, |point| point.held = true);
    for new in [skipping(&[]), skipping(&[7001, 7003]), skipping(&[7002]), gone, abroad, keeps, passed, elsewhere] {
        script.on().length(1).load(&old).at(40_001, 0).load(&new).load(&old).at(40_001, 0).load(&new).off();
        for start in [Start::Ready, Start::Pressed, Start::Engaged, Start::Disengaging] {
            script.start_with(start, &old).length(1).at(40_001, 0).press().load(&new).press().mode(1);
            script.at(40_001, 0).load(&old).off();
        }
    }
}

/// Driver skips do not count: neither is the trackside skip gained less, or lost less, for one; and a load clears them
/// without a word.
fn driver_skips(script: &mut Script) {
    let (one, other) = (skipping(&[7001]), skipping(&[7002]));
    for names in [&[7001][..], &[7002], &[7003], &[7001, 7002, 7003]] {
        script.on().load(&one);
        names.iter().for_each(|&name| script.calls.push(Call::skip(name)));
        script.load(&other);
        names.iter().for_each(|&name| script.calls.push(Call::skip(name)));
        script.load(&other).load(&one);
        names.iter().for_each(|&name| script.calls.extend([Call::revoke(name), Call::skip(name)]));
        script.load(&skipping(&[])).revoke(7001).off();
    }
}

/// A first journey writes neither: after power on, and after power off, whatever was in force before it.
fn first_journeys(script: &mut Script) {
    let (none, all) = (skipping(&[]), skipping(&[7001, 7002, 7003]));
    for first in [&none, &all] {
        for next in [&none, &all] {
            script.on().load(first).off().on().load(next).load(first).call(Call::fault()).load(next).off();
            script.load(first).on().turn_down(first).load(next).turn_down(first).load(next).off();
            script.start_with(Start::Engaged, first).off().start_with(Start::Engaged, next).load(first).off();
        }
    }
}

/// A load that is turned down says nothing of skips, and the old journey stays that of the load in force.
fn turned_down(script: &mut Script) {
    let (none, some, all) = (skipping(&[]), skipping(&[7002]), skipping(&[7001, 7002, 7003]));
    for start in [Start::Configuration, Start::Ready, Start::Engaged] {
        script.start_with(start, &some).turn_down(&none).load(&some).turn_down(&all).load(&some).turn_down(&some);
        script.load(&none).turn_down(&all).load(&none).turn_down(&none).load(&all).off();
    }
    let bad = changed(&[7001, 7003], 1, |point| (point.stop, point.skipped) = (false, true));
    script.on().load(&none).load(&bad).load(&none).load(&all).load(&bad).load(&all).off();
}

/// In each state, the train moving or not. A press that is pending is kept, and engaged the train goes on; where the
/// load alters conditions or the state, 68 stands last.
fn in_each_state(script: &mut Script) {
    let (one, other) = (skipping(&[7001]), skipping(&[7002, 7003]));
    let mut bare = one.clone();
    bare.book.clear();
    for start in STARTS {
        script.start_with(start, &one).load(&other).load(&one).at(30_000, 7).load(&other).mode(1).load(&one);
        script.load(&bare).load(&other).reports(30).load(&one).off();
    }
}

/// The stop that is reached is skipped now: it is not reached again, and passed beyond its place. Skipped no longer, it
/// is reached.
fn reached_stop(script: &mut Script) {
    for start in [Start::Configuration, Start::Ready, Start::Engaged] {
        script.start_with(start, &skipping(&[])).at(40_000, 0).load(&skipping(&[7002])).at(40_000, 0).press();
        script.at(40_001, 5).load(&skipping(&[])).at(40_001, 0).press().at(40_151, 5).load(&skipping(&[7002])).off();
    }
}

/// The most that an event writes: the last of 64 stops is held and reached, the End of Journey; the load ends the hold,
/// and all are skipped. Then all are skipped no longer, and half of them.
fn most_bytes(script: &mut Script) {
    let mut old = largest();
    old.journey.points[63].held = true;
    let mut new = largest();
    new.journey.points.iter_mut().for_each(|point| point.skipped = true);
    let mut half = largest();
    half.journey.points.iter_mut().step_by(2).for_each(|point| point.skipped = true);
    script.on().load(&old).position(17, 539, 1_000, 0).load(&new).position(17, 539, 1_000, 0).load(&old);
    script.load(&half).load(&new).load(&half).position(17, 539, 1_001, 5).load(&old).load(&half).off();
}

/// All of them.
pub fn trackside_skips(script: &mut Script) {
    let cases: [fn(&mut Script); 15] = [
        sets,
        orders,
        segments,
        fields,
        kinds_of_points,
        lacking,
        put_behind,
        ends_of_journey,
        at_a_held_stop,
        driver_skips,
        first_journeys,
        turned_down,
        in_each_state,
        reached_stop,
        most_bytes,
    ];
    cases.iter().for_each(|case| case(script));
}
