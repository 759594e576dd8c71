//! Fixed lists of calls, written one event after the other.

use crate::profiles::{p_journey, Profiles};
use model::adhesion::Constraint;
use model::calls::Call;
use model::events::UNDEFINED;
use model::packets::TractionBrake;

#[derive(Default)]
pub struct Script {
    pub calls: Vec<Call>,
}

/// Where a case begins: each state, and Ready also with a press.
#[derive(Clone, Copy, PartialEq, Eq)]
pub enum Start {
    NoPower,
    Configuration,
    NotAvailable,
    Available,
    Ready,
    Pressed,
    Engaged,
    Disengaging,
    Fault,
}

pub const STARTS: [Start; 9] = [
    Start::NoPower,
    Start::Configuration,
    Start::NotAvailable,
    Start::Available,
    Start::Ready,
    Start::Pressed,
    Start::Engaged,
    Start::Disengaging,
    Start::Fault,
];

impl Script {
    pub fn call(&mut self, call: Call) -> &mut Script {
        self.calls.push(call);
        self
    }

    pub fn on(&mut self) -> &mut Script {
        self.call(Call::power_on())
    }

    pub fn off(&mut self) -> &mut Script {
        self.call(Call::power_off())
    }

    pub fn configured(&mut self) -> &mut Script {
        self.call(Call::configured())
    }

    pub fn press(&mut self) -> &mut Script {
        self.call(Call::press())
    }

    pub fn reports(&mut self, reports: u8) -> &mut Script {
        self.call(Call::reports(reports))
    }

    pub fn mode(&mut self, mode: u8) -> &mut Script {
        self.call(Call::mode(mode))
    }

    pub fn lever(&mut self, lever: u8) -> &mut Script {
        self.call(Call::lever(lever))
    }

    pub fn length(&mut self, length: u32) -> &mut Script {
        self.call(Call::length(length))
    }

    pub fn skip(&mut self, nidtp: u32) -> &mut Script {
        self.call(Call::skip(nidtp))
    }

    pub fn revoke(&mut self, nidtp: u32) -> &mut Script {
        self.call(Call::revoke(nidtp))
    }

    pub fn position(&mut self, nidc: u16, nidsp: u32, offset: u32, speed: u16) -> &mut Script {
        self.call(Call::position(nidc, nidsp, offset, speed))
    }

    /// On segment (17, 500).
    pub fn at(&mut self, offset: u32, speed: u16) -> &mut Script {
        self.position(17, 500, offset, speed)
    }

    /// A request with this Q_ATO_SupTB, its size as M_ATO_TraBrRq.
    pub fn traction(&mut self, request: i8, q_ato_suptb: u8) -> &mut Script {
        let content = TractionBrake { m_ato_trabrrq: request.unsigned_abs(), q_ato_suptb, ..TractionBrake::default() };
        self.call(Call::traction(request, content))
    }

    pub fn adhesion(&mut self, rows: &[Constraint]) -> &mut Script {
        self.call(Call::adhesion(rows))
    }

    /// Offset undefined, standing.
    pub fn nowhere(&mut self) -> &mut Script {
        self.position(17, 500, UNDEFINED, 0)
    }

    pub fn load(&mut self, profiles: &Profiles) -> &mut Script {
        self.call(profiles.load())
    }

    /// Power on and what leads there.
    pub fn start(&mut self, start: Start) -> &mut Script {
        self.start_with(start, &p_journey())
    }

    /// The same with these profiles.
    pub fn start_with(&mut self, start: Start, profiles: &Profiles) -> &mut Script {
        if start == Start::NoPower {
            return self;
        }
        self.on().load(profiles).at(20_000, 0);
        match start {
            Start::NoPower | Start::Configuration => self,
            Start::NotAvailable => self.reports(30).configured(),
            Start::Available => self.reports(31).lever(1).configured(),
            Start::Ready => self.reports(31).configured(),
            Start::Pressed => self.reports(31).configured().press(),
            Start::Engaged => self.reports(31).configured().press().mode(1),
            Start::Disengaging => self.reports(31).configured().press().mode(1).reports(15),
            Start::Fault => self.reports(31).configured().call(Call::fault()),
        }
    }
}
