//! `page FILE HEADER`: plays the interface page (docs/INTERFACE.md) through the proved engine and the model, so that it
//! cannot say what is not so. The session is played call by call; the tables of events, profiles and packets are tried
//! at both ends of every range and next to them, those of traction requests in EG and DE; names are looked for in the
//! header. What differs is told with its line.

#[path = "../tools/page/engines.rs"]
mod engines;
#[path = "../tools/page/events.rs"]
mod events;
#[path = "../tools/page/packets.rs"]
mod packets;
#[path = "../tools/page/profiles.rs"]
mod profiles;
#[path = "../tools/page/session.rs"]
mod session;
#[path = "../tools/page/text.rs"]
mod text;
#[path = "../tools/page/traction.rs"]
mod traction;
#[path = "../tools/page/words.rs"]
mod words;

use proved::pair::Pair;
use text::{Checked, Page};

fn check(page: &Page, header: &str) -> Checked<String> {
    let (calls, load) = session::check(page, Pair::fresh())?;
    let kinds = events::check(page, &load)?;
    let fields = profiles::check(page)?;
    let packets = packets::check(page)?;
    let requests = traction::check(page, &load)?;
    let conditions = words::check(page, header)?;
    Ok(format!(
        "{calls} calls of the session, {kinds} kinds of events, {fields} fields of book and journey, \
         {packets} packets, {requests} traction requests and {conditions} application conditions are as proved engine, \
         model and header have them"
    ))
}

fn read_file(file: &str) -> String {
    std::fs::read_to_string(file).unwrap_or_else(|error| {
        eprintln!("{file}: {error}");
        std::process::exit(1);
    })
}

fn main() {
    let arguments: Vec<String> = std::env::args().collect();
    let [_, file, header] = &arguments[..] else {
        eprintln!("page FILE HEADER");
        std::process::exit(2);
    };
    match check(&Page::new(read_file(file)), &read_file(header)) {
        Ok(done) => println!("{file}: {done}"),
        Err(wrong) => {
            println!("{file}:{}: {}", wrong.line, wrong.what);
            std::process::exit(1);
        }
    }
}
