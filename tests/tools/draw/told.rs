//! What the independent model says of a scenario. `told answers SCENARIO`: a line for each event, R and the number, or
//! the state and whether AD is requested. `told packets SCENARIO`: every packet in words, also of loads turned down.

use model::calls::MEMORY;
use model::engine::{written, Engine};
use model::packets::{split_packets, Content, Packet};
use model::words::{packet_in_words, STATES};
use tools::language::Scenario;

fn main() {
    let arguments: Vec<String> = std::env::args().collect();
    let [_, what, file] = &arguments[..] else { panic!("told answers SCENARIO, or told packets SCENARIO") };
    let scenario = Scenario::read_file(file).expect("a scenario");
    let (mut engine, mut out, mut journey) = (Engine::fresh(), [0; MEMORY], None);
    for step in &scenario.steps {
        let answer = engine.call(&step.call, &mut out);
        if let (Ok(_), Some((name, _))) = (&answer, &step.loads) {
            journey = Some(name.as_str());
        }
        let name = |packet: &[u8], nidtp: u32| match Packet::read(packet) {
            Ok(Packet { content: Content::Point { nidc, .. }, .. }) => scenario.point_name_in(journey, nidc, nidtp),
            _ => nidtp.to_string(),
        };
        match answer {
            _ if what == "packets" => {
                for packet in split_packets(&out[..written(answer)]) {
                    println!("{}", packet_in_words(packet, &|nidtp| name(packet, nidtp)));
                }
            }
            Err(refused) => println!("R {}", refused.number),
            Ok(answer) => {
                let request = if answer.request { "requested" } else { "not requested" };
                println!("{} {request}", STATES[usize::from(answer.state)]);
            }
        }
    }
}
