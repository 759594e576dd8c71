//! `bench`: what calls cost through the C interface, beside the model and the copy of one engine by memcpy. For
//! information: `copies` has the bounds.

use inputs::profiles::Profiles;
use inputs::rows::{at, engaged, most_rows, on, ready, rows, traction, Row};
use inputs::sizes::{largest, profiles};
use model::calls::{Call, MEMORY};
use model::engine::{Answer, Engine, Refused};
use model::packets::{split_packets, Packet};
use proved::engine::Proved;
use proved::hollwern::{read, ENGINE_SIZE};
use proved::measure::{stack_of, Timer};
use proved::pair::{Memory, Pair};
use std::hint::black_box;

struct Cost {
    answer: Result<Answer, Refused>,
    proved: f64,
    model: f64,
    stack: usize,
}

struct Bench {
    timer: Timer,
    /// Nanoseconds of the copy of one engine.
    copy: f64,
}

impl Bench {
    fn new() -> Bench {
        let timer = Timer::new();
        let engine = Proved::fresh();
        let copy = timer.time(&engine, |to| to.clone_from(black_box(&engine)));
        Bench { timer, copy }
    }

    /// Both engines are first seen to agree.
    fn cost(&self, before: &[Call], call: &Call) -> Cost {
        let (mut pair, mut memory) = (Pair::fresh(), Memory::new());
        let mut agreed =
            |pair: &mut Pair, call: &Call| pair.call(call, &mut memory).unwrap_or_else(|error| panic!("{error}"));
        before.iter().for_each(|call| assert!(agreed(&mut pair, call).is_ok()));
        let answer = agreed(&mut pair.clone(), call);
        let mut out = [0; MEMORY];
        let proved = self.timer.time(&*pair.proved, |proved| proved.call(call, &mut out));
        let model = self.timer.time(&pair.model, |model| model.call(call, &mut out));
        let stack = stack_of(|| pair.proved.call(call, &mut out));
        Cost { answer, proved, model, stack }
    }

    fn print_row(&self, row: &Row) {
        let Cost { answer, proved, model, stack } = self.cost(&row.before, &row.call);
        let (copies, ratio) = (proved / self.copy, proved / model);
        let answer = match answer {
            Ok(Answer { bytes, .. }) => format!("A {bytes}"),
            Err(Refused { number, bytes }) => format!("R {number} {bytes}"),
        };
        println!("{:36} {answer:>6} {proved:>8.0} {model:>8.0} {ratio:>7.1} {copies:>7.1} {stack:>7}", row.name);
    }

    fn print_rows(&self) {
        println!("{:36} answer   proved    model   ratio  copies   stack", "nanoseconds");
        rows().iter().for_each(|row| self.print_row(row));
    }

    /// Two calls in one line of a table, each proved and model.
    fn print_growth(&self, size: String, calls: [(Vec<Call>, Call); 2]) {
        let costs = calls.map(|(before, call)| self.cost(&before, &call));
        let figures =
            costs.map(|cost| format!("{:>8.0} {:>8.0} {:>7.1}", cost.proved, cost.model, cost.proved / cost.model));
        println!("{size:>10}   {}", figures.join("   "));
    }

    fn print_tables(&self) {
        let columns = "  proved    model   ratio";
        println!(
            "\n    points   {:27} load on 40 segments\n             {columns}   {columns}",
            "report that passes them"
        );
        for points in [1, 2, 4, 8, 16, 32, 64] {
            let of = profiles(40, points, 40);
            self.print_growth(points.to_string(), [(ready(&of, 0), at(39, 9_000, 100)), (on(), of.load())]);
        }
        println!(
            "\n  segments   {:27} load with 16 points\n             {columns}   {columns}",
            "report on the last segment"
        );
        for segments in [1, 2, 4, 8, 16, 32, 40] {
            let of = profiles(segments, 16, segments);
            let last = segments - 1;
            self.print_growth(segments.to_string(), [(ready(&of, last), at(last, 500, 0)), (on(), of.load())]);
        }
        println!(
            "\nbook bytes   {:27} load, a byte cut (7)\n             {columns}   {columns}",
            "load (8 above 40 records)"
        );
        for records in [5, 10, 20, 40, 80, 160, 319] {
            let of = profiles(1, 1, records);
            let cut = Profiles { book_cut: 1, ..of.clone() };
            self.print_growth(of.book_bytes().len().to_string(), [(on(), of.load()), (on(), cut.load())]);
        }
    }

    /// A packet of each kind, read by the proved reader and by the model's.
    fn print_reading(&self) {
        let mut model = Engine::fresh();
        let mut out = [0; MEMORY];
        let mut written = Vec::new();
        for call in [engaged(&largest(), 0), vec![traction(), most_rows(), at(39, 9_000, 100)]].concat() {
            let answer = model.call(&call, &mut out).unwrap();
            written.extend_from_slice(&out[..answer.bytes]);
        }
        println!("\n{:36} answer   proved    model   ratio", "packets read");
        for number in [61, 62, 64, 65, 68] {
            let packet = split_packets(&written).into_iter().find(|packet| packet[0] == number).unwrap();
            assert!(read(packet).accepted && Packet::read(packet).is_ok());
            let proved = self.timer.time(&(), |()| read(black_box(packet)));
            let model = self.timer.time(&(), |()| Packet::read(black_box(packet)));
            let (name, answer) = (format!("packet {number}"), format!("A {}", packet.len()));
            println!("{name:36} {answer:>6} {proved:>8.1} {model:>8.1} {:>7.1}", proved / model);
        }
    }
}

fn main() {
    let bench = Bench::new();
    println!(
        "engine: {ENGINE_SIZE} bytes; its copy by memcpy: {:.0} ns; the model's engine: {} bytes",
        bench.copy,
        size_of::<Engine>()
    );
    bench.print_rows();
    bench.print_reading();
    bench.print_tables();
}
