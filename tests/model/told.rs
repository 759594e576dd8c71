//! Told once, in order: what the packets 62 of status 0, 1 and 2 since the load in force say of each point. That load
//! is the last packet 65 of status 0; one of status 1 tells of a load that is turned down, and what was told goes on. The
//! other statuses tell nothing of where a point stands: a 3 is looked over, also between the 1 and the 2 of a held stop.

use crate::engine::{Engine, Standing};
use crate::packets::{Content, Packet};

const PASSED: u8 = 0;
const STOPPED: u8 = 1;
const DEPARTED: u8 = 2;

/// A point as a packet 62 names it.
type Name = (u16, u32);

#[derive(Default)]
pub struct Told {
    /// How many points the load put behind.
    behind: usize,
    since: Vec<(Name, u8)>,
}

impl Told {
    /// Takes what a call wrote, accepted or refused; `engine` is the one after it.
    pub fn take(&mut self, packets: &[&[u8]], engine: &Engine) {
        if !engine.now.loaded {
            *self = Told::default();
        }
        for bytes in packets {
            match Packet::read(bytes).map(|packet| packet.content) {
                Ok(Content::Load { status: 0, .. }) => {
                    let behind = engine.standings().filter(|&standing| standing == Standing::Passed).count();
                    *self = Told { behind, since: Vec::new() };
                }
                Ok(Content::Point { nidc, nidtp, status: status @ (PASSED | STOPPED | DEPARTED), .. }) => {
                    self.since.push(((nidc, nidtp), status));
                }
                _ => {}
            }
        }
    }

    /// Those of status 0 and 2 are the points passed since the load, in order; a 2 stands behind the 1 of its point; and
    /// what was told gives where each point stands.
    pub fn check(&self, engine: &Engine) -> Result<(), String> {
        let passed: Vec<Name> =
            self.since.iter().filter(|(_, status)| *status != STOPPED).map(|(name, _)| *name).collect();
        let first = self.behind + passed.len();
        let route = &engine.route;
        let points = route.points().get(self.behind..first).unwrap_or(&[]);
        if !points.iter().map(|point| (route.segments()[point.segment as usize].nidc, point.nidtp)).eq(passed) {
            return Err("the points told as passed are not those passed since the load".into());
        }
        let alone = |k: usize| k == 0 || self.since[k - 1] != (self.since[k].0, STOPPED);
        if (0..self.since.len()).any(|k| self.since[k].1 == DEPARTED && alone(k)) {
            return Err("a departure does not stand behind the stop of its point".into());
        }
        let reached = self.since.last().is_some_and(|(_, status)| *status == STOPPED);
        let told = |k: usize| match k {
            k if k < first => Standing::Passed,
            k if k == first && reached => Standing::Reached,
            k if k == first => Standing::Targeted,
            _ => Standing::NotUsed,
        };
        if engine.standings().enumerate().any(|(k, standing)| standing != told(k)) {
            return Err("what was told since the load gives other standings".into());
        }
        Ok(())
    }
}
