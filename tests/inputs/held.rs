//! The edges of held stops (document 02, Q-5). Each case begins with power on and ends with power off.

use crate::profiles::{base, ending, held, one_segment, passing, stop, Profiles};
use crate::script::{Script, Start, STARTS};
use crate::sizes::largest;
use model::calls::Call;
use model::events::UNDEFINED;
use model::values::JourneyPoint;

/// The journey of P1 to P8, its stop held.
fn held_journey() -> Profiles {
    one_segment(&[(held(stop(7001, 0)), 40_000, 150), (ending(passing(7002, 0)), 90_000, 0)])
}

/// The same with another first point.
fn with_first(change: impl Fn(&mut JourneyPoint)) -> Profiles {
    let mut profiles = held_journey();
    change(&mut profiles.journey.points[0]);
    profiles
}

/// Becomes reached at either end of R and not one beside, by each alignment, with stopping data: 3 has none.
fn becomes_reached(script: &mut Script) {
    for (alignment, behind) in [(None, 0), (Some(0), 0), (Some(1), 100), (Some(2), 201)] {
        let profiles = with_first(|point| (point.alignment, point.stopping) = (alignment, Some(127)));
        for offset in [39_849, 39_850, 40_000, 40_150, 40_151] {
            script.on().length(201).load(&profiles).at(offset + behind, 1).at(offset + behind, 0);
            script.at(offset + behind, 0).at(40_151 + behind, 1).off();
        }
    }
}

/// Points passed in the same report stand before 1 and 3; the points behind it are not held by it; and each held stop
/// of a journey writes its own 3.
fn among_others(script: &mut Script) {
    let points = [
        (stop(7001, 0), 20_000, 150),
        (passing(7002, 0), 30_000, 0),
        (held(stop(7003, 0)), 40_000, 150),
        (stop(7004, 0), 50_000, 150),
        (held(stop(7005, 0)), 60_000, 10_000),
    ];
    let profiles = one_segment(&points);
    script.on().load(&profiles).at(40_100, 0).at(40_151, 9).at(50_000, 0).at(50_151, 9);
    script.at(50_151, 0).at(70_001, 9).off();
}

/// The front is in another country than the held stop's segment; loads keep the hold, end it and give it.
fn two_countries(script: &mut Script) {
    let mut base = base();
    base.journey.segments[1] = (18, 501);
    base.book[0].nidc = 18;
    base.journey.points[0] = JourneyPoint { alignment: Some(2), ..held(stop(7001, 0)) };
    script.on().length(70_000).load(&base).position(18, 501, 10_000, 0).load(&base);
    base.journey.points[0].held = false;
    script.position(18, 501, 10_000, 0).load(&base).position(18, 501, 10_000, 0).off();
    script.on().length(70_000).load(&base);
    base.journey.points[0].held = true;
    script.load(&base).position(18, 501, 10_000, 0);
    base.journey.points.remove(0);
    script.load(&base).off();
}

/// The End of Journey is the held stop, or stands before or behind it: Q_EOJ_REACHED of 3 is that of 1.
fn ends_of_journey(script: &mut Script) {
    for end in 0..3 {
        let mut points =
            [(passing(7001, 0), 20_000, 0), (held(stop(7002, 0)), 40_000, 150), (stop(7003, 0), 60_000, 150)];
        points[end].0.end = true;
        let profiles = one_segment(&points);
        let mut unheld = profiles.clone();
        unheld.journey.points[1].held = false;
        for start in [Start::Ready, Start::Pressed, Start::Engaged, Start::Disengaging] {
            script.start_with(start, &profiles).at(20_001, 5).at(40_000, 0).press().mode(0).press().load(&unheld);
            script.press().at(40_000, 0).press().mode(1).at(40_151, 5).off();
        }
    }
}

/// Trackside skips it too: it is never reached, and passed beyond its place.
fn skipped_by_trackside(script: &mut Script) {
    let skipped = with_first(|point| point.skipped = true);
    for start in [Start::Configuration, Start::Ready, Start::Engaged] {
        script.start_with(start, &skipped).at(39_900, 0).at(40_000, 0).press().load(&held_journey()).load(&skipped);
        script.at(40_000, 0).at(40_001, 0).press().load(&skipped).off();
    }
    script.on().load(&skipped).skip(7001).revoke(7001).at(40_000, 0).load(&held_journey()).at(40_000, 0);
    script.load(&skipped).at(40_000, 0).load(&held_journey()).off();
}

/// The driver skips it: not reached then. Reached, its skip and the revocation are 15.
fn skipped_by_driver(script: &mut Script) {
    let profiles = held_journey();
    script.start_with(Start::Ready, &profiles).skip(7001).at(40_000, 0).press().revoke(7001).at(39_990, 3).press();
    script.at(39_990, 0).press().skip(7001).revoke(7001).at(39_000, 5).skip(7001).press().off();
    script.start_with(Start::Ready, &profiles).skip(7001).at(40_001, 0).revoke(7001).press().at(40_000, 0).press();
    script.off();
    script.start_with(Start::Ready, &profiles).skip(7001).load(&profiles).at(40_000, 0).press().off();
}

/// A press in each state at the reached stop, before it and behind it, where the stop is held and where it is not. Then
/// the lever, the mode and the reports lead to RE, if anything does.
fn presses_in_states(script: &mut Script) {
    for profiles in [held_journey(), with_first(|point| point.held = false)] {
        for start in STARTS {
            script.start_with(start, &profiles).press().at(40_000, 0).press().mode(0).reports(31).lever(0);
            script.call(Call::configured()).press().mode(1).press().lever(2).press().lever(0).mode(0).press();
            script.at(40_151, 5).press().mode(1).off();
        }
    }
}

/// Wherever the train creeps a press is 20 in RE, and 6 where condition 6 is lacking; one of two bytes is 1. When the
/// train has departed, it is taken, and a load ends no hold.
fn presses_in_a_creep(script: &mut Script) {
    let profiles = held_journey();
    let longer = || Call::of(vec![8, 0]);
    script.start_with(Start::Ready, &profiles).at(40_000, 0).call(longer()).press().call(Call::configured());
    for (offset, speed) in [(40_150, 5), (39_849, 5), (39_000, 0), (UNDEFINED, 5), (UNDEFINED, 0), (90_001, 0), (0, 9)]
    {
        script.at(offset, speed).press().mode(1).mode(0).press();
    }
    script.at(40_151, 1).press().at(40_000, 0).press().load(&with_first(|point| point.held = false)).mode(1).off();
}

/// The position is not known: with all nine conditions, on a segment that is not booked and behind it; else without the
/// sixth.
fn presses_unlocated(script: &mut Script) {
    let mut base = base();
    for is_held in [true, false] {
        base.journey.points[0] = JourneyPoint { held: is_held, ..stop(7001, 0) };
        for (nidc, nidsp, offset) in
            [(18, 500, 5), (17, 502, 30_000), (17, 503, 1_000), (17, 599, 5), (17, 500, UNDEFINED)]
        {
            script.on().reports(31).load(&base).at(40_000, 0).configured().press().mode(0);
            script.position(nidc, nidsp, offset, 9).press().position(nidc, nidsp, offset, 0).press().mode(1).mode(0);
            script.position(17, 501, 20, 0).press().position(17, 501, 20, 9).press().mode(1).off();
        }
    }
}

/// The held stop becomes reached with a press pending.
fn press_pending(script: &mut Script) -> &mut Script {
    script.start_with(Start::Pressed, &held_journey()).at(40_000, 0)
}

/// That press is kept and engages, though another one is refused; engaged so, the train creeps, disengages, departs. It
/// is lost as any press is, and then none is taken.
fn pending(script: &mut Script) {
    press_pending(script).press().mode(1).press().at(40_000, 0).at(40_100, 5).at(40_151, 5).mode(0).press();
    script.mode(1).off();
    press_pending(script).at(40_100, 5).press().mode(1).mode(0).press().mode(1).off();
    press_pending(script).mode(1).lever(2).press().lever(0).mode(0).press().mode(1).off();
    press_pending(script).mode(1).reports(30).press().reports(31).press().mode(0).press().off();
    press_pending(script).mode(1).traction(50, 0).load(&held_journey()).traction(50, 0).at(40_000, 0).press().off();
    press_pending(script).lever(1).lever(0).press().mode(1).off();
    press_pending(script).nowhere().at(40_000, 0).press().mode(1).off();
    press_pending(script).at(90_001, 0).at(90_001, 5).mode(1).off();
}

/// Journeys that come while the held stop is reached: those that keep the hold, then those that end it.
fn keeping() -> Vec<Profiles> {
    let mut keeps = vec![held_journey()];
    keeps.push(with_first(|point| (point.alignment, point.stopping) = (Some(2), Some(9))));
    keeps.push(with_first(|point| point.skipped = true));
    // in another country; later in the journey; as its end; not placed
    let mut abroad = held_journey();
    (abroad.journey.segments[0].0, abroad.book[0].nidc) = (18, 18);
    keeps.push(abroad);
    let later =
        [(stop(7003, 0), 39_900, 10_000), (held(stop(7001, 0)), 40_000, 150), (ending(passing(7002, 0)), 90_000, 0)];
    keeps.push(one_segment(&later));
    keeps.push(one_segment(&[(ending(held(stop(7001, 0))), 40_000, 150)]));
    keeps.push(Profiles { book: vec![], ..held_journey() });
    // put behind
    keeps.push(one_segment(&[(held(stop(7001, 0)), 10_000, 150), (ending(passing(7002, 0)), 90_000, 0)]));
    keeps.push(one_segment(&[(held(stop(7001, 0)), 10_000, 150), (ending(passing(7002, 0)), 20_000, 0)]));
    keeps
}

fn ending_the_hold() -> Vec<Profiles> {
    let unheld = |mut profiles: Profiles| {
        profiles.journey.points.iter_mut().for_each(|point| point.held = false);
        profiles
    };
    let mut ends: Vec<Profiles> = keeping().into_iter().map(unheld).collect();
    ends.push(with_first(|point| (point.stop, point.held) = (false, false)));
    ends.push(with_first(|point| (point.stop, point.held, point.end) = (false, false, false)));
    // without it: another held stop at its place, a name beside it, nothing
    ends.push(one_segment(&[(held(stop(7003, 0)), 40_000, 150), (ending(passing(7002, 0)), 90_000, 0)]));
    ends.push(one_segment(&[(held(stop(7000, 0)), 40_000, 150), (ending(held(stop(7002, 0))), 90_000, 0)]));
    ends.push(one_segment(&[(passing(7002, 0), 90_000, 0)]));
    ends.push(one_segment(&[(passing(7002, 0), 20_000, 0)]));
    // the end put behind, and a point left
    ends.push(one_segment(&[(ending(stop(7001, 0)), 20_000, 150), (passing(7002, 0), 90_000, 0)]));
    for profiles in &mut ends {
        profiles.journey.operational = Some(0x0065_4321);
        (profiles.journey.date, profiles.journey.seconds, profiles.journey.counter) = (9_000, 30_000, 2);
    }
    ends
}

/// Each of them while it is reached: in CO, in RE, with a press pending, engaged, disengaging. Then a press, and AD; a
/// halt there, and a press; the departure.
fn loads(script: &mut Script) {
    let old = with_first(|point| (point.alignment, point.stopping) = (Some(1), Some(5)));
    for next in [keeping(), ending_the_hold()].concat() {
        script.on().length(20).load(&old).at(40_010, 0).load(&next).load(&next).at(40_010, 0).load(&old).off();
        script.start_with(Start::Ready, &old).at(40_000, 0).press().load(&next).press().mode(1).at(40_000, 0);
        script.press().mode(0).press().mode(1).at(40_151, 5).load(&old).off();
        script.start_with(Start::Pressed, &old).at(40_000, 0).load(&next).mode(1).at(40_000, 5).at(40_000, 0).off();
        script.start_with(Start::Pressed, &old).at(40_000, 0).mode(1).load(&next).press().at(40_000, 0).mode(0);
        script.press().load(&next).press().mode(1).off();
        script.start_with(Start::Disengaging, &old).at(40_000, 0).press().load(&next).at(40_000, 0).press().off();
    }
}

/// In a creep, with the position lost, beyond R: the stop is reached still, and the load is one at a held stop.
fn loads_in_a_creep(script: &mut Script) {
    let holding = held_journey();
    for next in [held_journey(), with_first(|point| point.held = false), one_segment(&[(passing(7002, 0), 90_000, 0)])]
    {
        for (offset, speed) in [(40_150, 5), (39_000, 5), (UNDEFINED, 5), (40_151, 0), (90_001, 0)] {
            script.start_with(Start::Ready, &holding).at(40_000, 0).at(offset, speed).load(&next).press();
            script.at(40_100, 5).press().at(40_100, 0).press().load(&next).at(40_151, 5).off();
        }
    }
}

/// No hold is ended: the held stop is targeted, not used, or departed; the stop that is reached is not held, though the
/// new journey holds it, or another is; with no journey before, and with a load that took the stop back to targeted.
fn loads_elsewhere(script: &mut Script) {
    let (holding, free) = (held_journey(), with_first(|point| point.held = false));
    let gone = one_segment(&[(passing(7002, 0), 90_000, 0)]);
    for next in [&holding, &free, &gone] {
        script.on().load(next).at(40_000, 5).load(&holding).load(next).at(40_000, 5).load(next).off();
        script.on().load(&holding).at(40_000, 0).at(40_151, 5).load(next).at(40_000, 0).off();
        script.on().load(&free).at(40_000, 0).load(next).at(40_000, 0).load(next).off();
        script.start_with(Start::Ready, &free).at(40_000, 0).press().load(&holding).press().at(40_000, 0).press();
        script.off().on().load(&holding).at(40_000, 0).load(&holding).load(next).at(40_000, 0).off();
    }
    let two = [(stop(7001, 0), 40_000, 150), (held(stop(7003, 0)), 60_000, 150)];
    script.on().load(&one_segment(&two)).at(40_000, 0).load(&free).off();
}

/// A load that is turned down leaves the hold as it is: no 4, and a press is 20 as before.
fn turned_down(script: &mut Script) {
    let free = with_first(|point| point.held = false);
    script.start_with(Start::Ready, &held_journey()).at(40_000, 0).turn_down(&free).press().turn_down(&held_journey());
    script.at(39_000, 5).turn_down(&free).press().load(&free).turn_down(&held_journey()).press().off();
    script.start_with(Start::Pressed, &held_journey()).at(40_000, 0).turn_down(&free).mode(1).turn_down(&free).off();
    let bad = with_first(|point| (point.stop, point.held) = (false, true));
    script.start_with(Start::Ready, &held_journey()).at(40_000, 0).load(&bad).press().off();
}

/// Power off and a fault end it without a word; after them nothing is held, until it is reached anew.
fn power_off_and_fault(script: &mut Script) {
    let holding = held_journey();
    for start in [Start::Configuration, Start::Ready, Start::Pressed, Start::Engaged] {
        script.start_with(start, &holding).at(40_000, 0).off();
        script.start(Start::Ready).at(40_000, 0).press().off();
        script.start_with(start, &holding).at(40_000, 0).call(Call::fault()).press().load(&holding).off();
        script
            .start_with(start, &holding)
            .at(40_000, 0)
            .off()
            .on()
            .at(40_000, 0)
            .load(&holding)
            .reports(31)
            .configured();
        script.press().mode(1).at(40_000, 0).mode(0).press().off();
    }
}

/// The most that an event writes: 63 points passed, and the last, the End of Journey, reached and held.
fn most_bytes(script: &mut Script) {
    let mut largest = largest();
    largest.journey.points[63].held = true;
    script.on().load(&largest).position(17, 539, 1_000, 0).load(&largest).position(17, 539, 1_000, 0);
    largest.journey.points.iter_mut().for_each(|point| point.held = true);
    script.nowhere().load(&largest).position(17, 539, 1_000, 0).off();
}

/// All of them.
pub fn held_stops(script: &mut Script) {
    let cases: [fn(&mut Script); 16] = [
        becomes_reached,
        among_others,
        two_countries,
        ends_of_journey,
        skipped_by_trackside,
        skipped_by_driver,
        presses_in_states,
        presses_in_a_creep,
        presses_unlocated,
        pending,
        loads,
        loads_in_a_creep,
        loads_elsewhere,
        turned_down,
        power_off_and_fault,
        most_bytes,
    ];
    cases.iter().for_each(|case| case(script));
}
