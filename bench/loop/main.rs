//! The program of the copy that plain.py makes: run CONFIG TRAFFIC [--report WORD] [--time]. It
//! takes both texts as right, and writes the latency report, or the stall report where WORD is
//! stalls.

mod lists;

use lists::Global;
use noc_engine::{Engine, Setup};
use noc_packet::Packet;
use noc_route::{Relation, RuleName};
use noc_topo::{Kind, Shape};
use std::collections::HashMap;
use std::env;
use std::fs;
use std::time::Instant;

const VERDICTS: [&str; 10] = [
    "empty",
    "routed",
    "granted",
    "moved",
    "no_flit",
    "no_idle_channel",
    "lost_channel",
    "no_credit",
    "lost_input",
    "lost_switch",
];

fn main() {
    let words: Vec<String> = env::args().collect();
    let values = values(&read(&words[2]));
    let packets = lists::Vec::from(packets(&read(&words[3])));
    let number = |key: &str| numbers(&values[key])[0];
    let radix: Vec<usize> = numbers(&values["radix"])
        .iter()
        .map(|&it| it as usize)
        .collect();
    let kind = if values["kind"] == "mesh" {
        Kind::Mesh
    } else {
        Kind::Torus
    };
    let rule = RuleName::named(&values["rule"])
        .and_then(RuleName::rule)
        .expect("a rule");
    let (channels, classes) = (number("channels") as usize, number("classes") as usize);
    let shape = Shape::new(kind, &radix).ok().expect("a shape");
    let relation = Relation::build(Global, &shape, channels, classes, rule)
        .ok()
        .expect("a relation");
    let queues = noc_queues::starts_by_node(Global, shape.nodes(), &packets)
        .ok()
        .expect("queues");
    let setup = Setup {
        relation: &relation,
        depth: number("buffer") as usize,
        packets: &packets,
    };
    let mut engine = Engine::new(Global, &setup, &queues)
        .ok()
        .expect("an engine");
    let start = Instant::now();
    cycle_loop(&mut engine, &relation, number("cycles"));
    if words.contains(&"--time".to_string()) {
        eprintln!("seconds {:.9}", start.elapsed().as_secs_f64());
    }
    let stalled = words.contains(&"stalls".to_string());
    print!(
        "{}",
        if stalled {
            stalls(&engine, &shape, channels)
        } else {
            latencies(&engine, &packets)
        }
    );
}

/// What count.py counts, with what is inlined in it.
#[inline(never)]
fn cycle_loop(engine: &mut Engine, relation: &Relation, cycles: u32) {
    engine.run(relation, cycles);
}

fn read(name: &str) -> String {
    fs::read_to_string(name).expect(name)
}

/// The values of a configuration by their keys, without quotes, brackets, spaces and underscores.
fn values(text: &str) -> HashMap<String, String> {
    let lines = text
        .lines()
        .filter_map(|line| line.split('#').next()?.split_once('='));
    lines
        .map(|(key, value)| {
            (
                key.trim().to_string(),
                value.replace(['"', '[', ']', ' ', '_'], ""),
            )
        })
        .collect()
}

fn numbers(text: &str) -> Vec<u32> {
    text.split(',')
        .map(|number| number.parse().expect("a number"))
        .collect()
}

fn packets(text: &str) -> Vec<Packet> {
    let rows = text.lines().skip(1).map(numbers);
    rows.map(|it| Packet {
        source: it[0],
        destination: it[1],
        class: it[2],
        length: it[3],
        due: it[4],
    })
    .collect()
}

fn latencies(engine: &Engine, packets: &[Packet]) -> String {
    let mut text = "packet,source,destination,class,length,due,out,latency\n".to_string();
    for (number, it) in packets.iter().enumerate() {
        let out = engine.arrival(number);
        let told = out.map_or("-,-".to_string(), |cycle| {
            format!("{cycle},{}", cycle - u64::from(it.due))
        });
        text += &format!(
            "{number},{},{},{},{},{},{told}\n",
            it.source, it.destination, it.class, it.length, it.due
        );
    }
    text
}

fn stalls(engine: &Engine, shape: &Shape, channels: usize) -> String {
    let mut text = format!("router,port,vc,{}\n", VERDICTS.join(","));
    let local = shape.ports() - 1;
    for router in 0..shape.nodes() {
        for port in 0..=local {
            if port != local && shape.neighbour(router, port).is_none() {
                continue;
            }
            let sign = if port % 2 == 0 { '+' } else { '-' };
            let name = if port == local {
                "local".to_string()
            } else {
                format!("{sign}{}", port / 2)
            };
            for channel in 0..channels {
                let counts = engine
                    .counts(router, port, channel)
                    .map(|count| count.to_string());
                text += &format!("{router},{name},{channel},{}\n", counts.join(","));
            }
        }
    }
    text
}

// The crates of the copy.
