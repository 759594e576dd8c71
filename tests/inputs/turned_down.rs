//! The edges of loads that are turned down: those that 7 to 12 refuse, by the title of document 02's Q-4, "Profiles
//! turned down are recorded too". Each case begins with power on and ends with power off.

use crate::faults::{BOOK_FAULTS, JOURNEY_FAULTS};
use crate::profiles::{base, ending, one_segment, p_journey, passing, record, stop, Profiles};
use crate::script::{Script, Start, STARTS};
use crate::sizes::largest;
use model::calls::Call;
use model::events::UNDEFINED;

/// One for each of 7 to 12.
const FAULTS: [&str; 6] = [
    "R 10001",
    "segment twice in the book",
    "date 32768",
    "segment twice in the journey",
    "no End of Journey",
    "places fall",
];

/// These profiles with each of the faults. Their stamp and names are none that packet 65 may have then.
fn turned_down(profiles: &Profiles) -> Vec<Profiles> {
    let with = |name: &str| {
        let mut profiles = profiles.clone();
        profiles.journey.operational = Some(0x0099_9999);
        (profiles.journey.seconds, profiles.journey.counter, profiles.journey.atots) = (77, 7, Some(7));
        let fault = BOOK_FAULTS.iter().chain(JOURNEY_FAULTS).find(|fault| fault.name == name).expect(name);
        (fault.apply)(&mut profiles, 0);
        profiles
    };
    FAULTS.map(with).to_vec()
}

impl Script {
    /// The six loads made of these profiles, one after the other.
    pub fn turn_down(&mut self, profiles: &Profiles) -> &mut Script {
        turned_down(profiles).iter().for_each(|profiles| self.calls.push(profiles.load()));
        self
    }
}

/// No journey is in force: nothing known yet, a position reported that the refused journey would place, and after
/// power off what there was before it.
fn no_journey(script: &mut Script) {
    let profiles = p_journey();
    script.on().turn_down(&profiles).at(20_000, 5).turn_down(&profiles).nowhere().turn_down(&profiles).off();
    script.on().load(&base()).at(20_000, 5).off().on().turn_down(&base()).at(20_000, 0).turn_down(&base()).off();
}

/// The position known, also at the end of its segment and in another country than the journey's first segment; then
/// undefined, of no journey segment, of one that is not booked, of one that is booked and not placed. The refused
/// journey would have it otherwise.
fn positions(script: &mut Script) {
    let mut base = base();
    base.journey.segments[1] = (18, 501);
    base.book[0].nidc = 18;
    let other = one_segment(&[(stop(7001, 0), 100, 0), (ending(passing(7002, 0)), 200, 0)]);
    script.on().load(&base).turn_down(&base);
    for (nidc, nidsp, offset) in [
        (17, 500, 0),
        (17, 500, 100_000),
        (18, 501, 50_000),
        (17, 500, UNDEFINED),
        (17, 501, 20_000),
        (18, 500, 5),
        (17, 502, 30_000),
        (17, 503, 1_000),
    ] {
        script.position(nidc, nidsp, offset, 7).turn_down(&base).turn_down(&other);
    }
    // refused by 13: the position before stays
    script.at(20_000, 9).at(100_001, 3).turn_down(&base).off();
    // known by the refused journey alone, and by the one in force alone
    script.on().load(&other).position(17, 502, 5, 7).turn_down(&base).position(17, 501, 5, 7).turn_down(&base).off();
    script.on().load(&base).position(18, 501, 5, 7).turn_down(&other).off();
}

/// A held offset beyond its segment's new length is not known, and the header keeps it; one that would be beyond the
/// length by the refused book is known.
fn lengths(script: &mut Script) {
    let long = base();
    let mut short = base();
    short.book[1] = record(17, 500, 50_000, &[(7001, 40_000, 150), (7002, 45_000, 0)], &[]);
    script.on().load(&long).at(60_000, 3).turn_down(&short).load(&short).turn_down(&short).turn_down(&long);
    script.at(50_000, 0).turn_down(&long).load(&long).turn_down(&short).off();
}

/// In each state; NP and FA refuse it by 3 and 5, and nothing is written then. A press pending is kept, EG goes on.
fn in_each_state(script: &mut Script) {
    for start in STARTS {
        let good = p_journey();
        script.start(start).turn_down(&good).at(20_100, 7).turn_down(&good).mode(1).turn_down(&good);
        script.load(&good).turn_down(&good).off();
    }
}

/// At a stop that is reached, standing and in a creep: it stays reached and is departed as ever, the points that
/// were passed are not begun anew. Then the load that is accepted.
fn at_the_platform(script: &mut Script) {
    let good = p_journey();
    for (offset, speed) in [(40_000, 0), (40_150, 5), (39_000, 5), (UNDEFINED, 5), (90_001, 0)] {
        script.on().load(&good).at(40_000, 0).turn_down(&good).at(offset, speed).turn_down(&good);
        script.at(40_151, 5).turn_down(&good).at(90_001, 5).turn_down(&good).load(&good).turn_down(&good).off();
        script.on().load(&good).at(40_000, 0).at(offset, speed).turn_down(&good).load(&good).at(40_100, 0);
        script.turn_down(&good).at(40_151, 1).off();
    }
    script.start(Start::Engaged).turn_down(&good).at(40_000, 0).turn_down(&good).mode(0).press().turn_down(&good);
    script.mode(1).turn_down(&good).at(40_100, 5).turn_down(&good).at(40_151, 5).turn_down(&good).load(&good).off();
}

/// What else a load would clear is kept: driver skips, the request that is remembered; and a start from speed 0 writes
/// its 68 all the same.
fn nothing_is_cleared(script: &mut Script) {
    let good = p_journey();
    script.on().load(&good).skip(7001).turn_down(&good).skip(7001).at(40_000, 0).at(40_001, 1).turn_down(&good);
    script.at(40_001, 0).revoke(7001).turn_down(&good).at(40_001, 1).off();
    for start in [Start::Engaged, Start::Disengaging] {
        script.start(start).traction(75, 1).turn_down(&good).traction(77, 1).traction(72, 1).turn_down(&good).off();
    }
}

/// A load that is a byte too long is refused by 1, before its profiles are looked at; one that brings none is turned
/// down.
fn odd_loads(script: &mut Script) {
    for profiles in turned_down(&p_journey()) {
        let longer = Call { event: vec![11, 0], ..profiles.load() };
        script.on().call(longer).call(profiles.load()).call(Call::load(vec![], vec![])).off();
    }
}

/// The largest profiles with a byte cut from the book, and from the journey.
fn largest_cut(script: &mut Script) {
    let largest = largest();
    let book = Profiles { book_cut: 1, ..largest.clone() };
    let journey = Profiles { journey_cut: 1, ..largest.clone() };
    script.on().load(&book).load(&journey).load(&largest).position(17, 539, 9_000, 9).load(&book).load(&journey).off();
}

/// All of them.
pub fn loads_turned_down(script: &mut Script) {
    let cases: [fn(&mut Script); 8] =
        [no_journey, positions, lengths, in_each_state, at_the_platform, nothing_is_cleared, odd_loads, largest_cut];
    cases.iter().for_each(|case| case(script));
}
