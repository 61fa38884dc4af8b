//! Random calls of three devices, and the script that `mailrep run` plays of the same events: `beside SEED CALLS SCRIPT`.
//!
//! The script goes into the file, and what the devices answered, in the words of `mailrep run`, to standard output.
//! `tools/try-c` compares the two.

use mailrep::{Device, Draft, Error, Received, Version};
use std::fmt::Write as _;
use std::{env, fs};

const FILTERS: [&str; 3] = [
    "all",
    "label:inbox",
    "label:inbox & !flag:deleted | flag:flagged",
];
const LABELS: [&str; 4] = [".", "inbox", "work", "inbox,work"];
const FLAGS: [(&str, u8); 4] = [(".", 0), ("seen", 1), ("flagged", 4), ("seen+deleted", 17)];
const EVENT_LIMIT: u32 = 400;

/// Days from 1970-01-01 to 2026-01-05.
const DAY: u16 = 20458;

/// Numbers that look random (xorshift, Marsaglia 2003).
struct Dice(u64);

impl Dice {
    fn roll(&mut self, below: usize) -> usize {
        self.0 ^= self.0 << 13;
        self.0 ^= self.0 >> 7;
        self.0 ^= self.0 << 17;
        (self.0 >> 11) as usize % below
    }
}

struct World {
    dice: Dice,
    devices: Vec<Device>,
    asks: Vec<Vec<u8>>,
    records: Vec<Vec<u8>>,
    receipts: Vec<Vec<u8>>,
    script: String,
    answers: String,
}

/// The answer where a call was refused, or what it is else.
fn told<T>(answer: mailrep::Result<T>, tell: impl FnOnce(T) -> String) -> String {
    match answer {
        Ok(value) => tell(value),
        Err(Error::Refused(refusal)) => format!("refused {}", refusal as u8),
        Err(error) => panic!("{error}"),
    }
}

fn hex(bytes: &[u8]) -> String {
    bytes.iter().map(|byte| format!("{byte:02x}")).collect()
}

fn list(versions: impl Iterator<Item = Version>) -> String {
    versions.map(|version| format!(" {version}")).collect()
}

impl World {
    fn new(seed: u64) -> World {
        let mut script = String::new();
        let mut devices = Vec::new();
        for (id, filter) in (0..).zip(FILTERS) {
            writeln!(script, "replica {id} {EVENT_LIMIT} 16 {filter}").unwrap();
            devices.push(Device::open(id, filter, EVENT_LIMIT).unwrap());
        }
        World {
            dice: Dice(seed.wrapping_mul(0x9e37_79b9_7f4a_7c15) | 1),
            devices,
            asks: Vec::new(),
            records: Vec::new(),
            receipts: Vec::new(),
            script,
            answers: String::new(),
        }
    }

    fn line(&mut self, line: String, answer: String) {
        writeln!(self.script, "{line}").unwrap();
        writeln!(self.answers, "{answer}").unwrap();
    }

    /// A version that is held, mostly.
    fn version(&mut self, id: usize) -> Version {
        let heads: Vec<_> = self.devices[id].heads().map(|head| head.version).collect();
        if heads.is_empty() || self.dice.roll(8) == 0 {
            let author = self.dice.roll(3) as u32;
            let counter = 1 + self.dice.roll(20) as u32;
            return Version { author, counter };
        }
        heads[self.dice.roll(heads.len())]
    }

    fn write(&mut self, id: usize, is_edit: bool) {
        let labels = LABELS[self.dice.roll(LABELS.len())];
        let (flags, bits) = FLAGS[self.dice.roll(FLAGS.len())];
        let body = "x".repeat(self.dice.roll(1000));
        let draft = Draft {
            from: "ann",
            subject: "Hi",
            body: body.as_bytes(),
            labels: if labels == "." { "" } else { labels },
            flags: bits,
            day: DAY,
        };
        let message = format!("{labels} {flags} 2026-01-05 ann Hi // {body}");
        if is_edit {
            let bases: Vec<_> = (0..1 + self.dice.roll(2))
                .map(|_| self.version(id))
                .collect();
            let answer = told(self.devices[id].edit(&bases, &draft), |v| {
                format!("issued {v}")
            });
            let names: Vec<_> = bases.iter().map(Version::to_string).collect();
            self.line(format!("edit {id} {} {message}", names.join(",")), answer);
        } else {
            let answer = told(self.devices[id].create(&draft), |v| format!("issued {v}"));
            self.line(format!("create {id} {message}"), answer);
        }
    }

    fn pull(&mut self, id: usize) {
        let asks = &mut self.asks;
        let answer = told(self.devices[id].pull(), |(session, frame)| {
            asks.push(frame);
            format!("asked Q{} session {session}", asks.len())
        });
        self.line(format!("pull {id}"), answer);
    }

    fn answer(&mut self, id: usize) {
        if self.asks.is_empty() {
            return self.pull(id);
        }
        let place = self.asks.len() - 1 - self.dice.roll(self.asks.len().min(3));
        let answer = told(self.devices[id].answer(&self.asks[place]), |s| {
            format!("streaming {s}")
        });
        self.line(format!("answer {id} Q{}", place + 1), answer);
    }

    fn next(&mut self, id: usize) {
        let streams = self.devices[id].streams().unwrap();
        let stream = match streams.len() {
            0 => 1,
            open => streams[self.dice.roll(open)],
        };
        let records = &mut self.records;
        let answer = told(self.devices[id].next(stream), |frame| {
            records.push(frame);
            format!("gave P{}", records.len())
        });
        let gave = answer.starts_with("gave");
        self.line(format!("next {id} {stream}"), answer);
        if gave {
            let place = self.records.len();
            self.line(
                format!("bytes P{place}"),
                format!("bytes P{place}: {}", hex(&self.records[place - 1])),
            );
        }
    }

    fn receive(&mut self, id: usize) {
        if self.records.is_empty() {
            return self.next(id);
        }
        let place = self.records.len() - 1 - self.dice.roll(self.records.len().min(4));
        let answer = told(self.devices[id].receive(&self.records[place]), |outcome| {
            match outcome {
                Received::Took => "took",
                Received::Known => "known",
                Received::Finished => "finished",
            }
            .to_string()
        });
        self.line(format!("receive {id} P{}", place + 1), answer);
    }

    /// A whole sync, or the first records of one.
    fn sync(&mut self, to: usize, from: usize) {
        self.pull(to);
        let Some(place) = self.asks.len().checked_sub(1) else {
            return;
        };
        let answer = told(self.devices[from].answer(&self.asks[place]), |s| {
            format!("streaming {s}")
        });
        let stream = answer
            .strip_prefix("streaming ")
            .and_then(|number| number.parse().ok());
        self.line(format!("answer {from} Q{}", place + 1), answer);
        let Some(stream) = stream else { return };
        for _ in 0..1 + self.dice.roll(60) {
            let records = &mut self.records;
            let answer = told(self.devices[from].next(stream), |frame| {
                records.push(frame);
                format!("gave P{}", records.len())
            });
            let gave = answer.starts_with("gave");
            self.line(format!("next {from} {stream}"), answer);
            if !gave {
                return;
            }
            let place = self.records.len();
            let outcome = self.devices[to].receive(&self.records[place - 1]);
            let finished = outcome == Ok(Received::Finished);
            let answer = told(outcome, |outcome| format!("{outcome:?}").to_lowercase());
            self.line(format!("receive {to} P{place}"), answer);
            if finished {
                return;
            }
        }
    }

    fn cut(&mut self, id: usize) {
        let number = 1 + self.dice.roll(6) as u64;
        if self.dice.roll(2) == 0 {
            let answer = told(self.devices[id].cut_in(number), |()| "done".to_string());
            self.line(format!("cutin {id} {number}"), answer);
        } else {
            let answer = told(self.devices[id].cut_out(number), |()| "done".to_string());
            self.line(format!("cutout {id} {number}"), answer);
        }
    }

    fn vouch(&mut self, id: usize) {
        let version = self.version(id);
        let receipts = &mut self.receipts;
        let answer = told(self.devices[id].vouch(version), |frame| {
            receipts.push(frame);
            format!("vouched R{}", receipts.len())
        });
        self.line(format!("vouch {id} {version}"), answer);
    }

    fn release(&mut self, id: usize) {
        if self.receipts.is_empty() {
            return self.vouch(id);
        }
        let place = self.dice.roll(self.receipts.len());
        let answer = told(self.devices[id].release(&self.receipts[place]), |()| {
            "done".to_string()
        });
        self.line(format!("release {id} R{}", place + 1), answer);
    }

    fn look(&mut self, id: usize) {
        let device = &mut self.devices[id];
        let heads = list(device.heads().map(|head| head.version));
        let push_outs = list(device.push_outs().map(|held| held.version));
        let changes: String = device
            .changes_since(0)
            .map(|change| {
                format!(
                    " {}{}",
                    if change.entered() { '+' } else { '-' },
                    change.version
                )
            })
            .collect();
        let events = device.counts().events;
        self.line(format!("heads {id}"), format!("heads {id}:{heads}"));
        self.line(
            format!("pushouts {id}"),
            format!("pushouts {id}:{push_outs}"),
        );
        self.line(format!("feed {id}"), format!("feed {id}:{changes}"));
        self.line(format!("log {id}"), format!("log {id}: {events}"));
    }

    /// The device is closed, and opened again of its log.
    fn reopen(&mut self, id: usize) {
        let log: Vec<u8> = self.devices[id]
            .log_since(0)
            .flat_map(Result::unwrap)
            .collect();
        self.devices[id] = Device::replay(id as u16, FILTERS[id], EVENT_LIMIT, &log).unwrap();
    }

    fn call(&mut self) {
        let id = self.dice.roll(self.devices.len());
        match self.dice.roll(40) {
            0..8 => self.write(id, false),
            8..15 => self.write(id, true),
            15..18 => self.pull(id),
            18..21 => self.answer(id),
            21..26 => self.next(id),
            26..31 => self.receive(id),
            31..33 => {
                let from = (id + 1 + self.dice.roll(2)) % 3;
                self.sync(id, from);
            }
            33..35 => self.cut(id),
            35 => self.vouch(id),
            36 => self.release(id),
            37 => self.look(id),
            38 => self.reopen(id),
            _ if self.dice.roll(60) == 0 => {
                let answer = told(self.devices[id].retire(), |()| "done".to_string());
                self.line(format!("retire {id}"), answer);
            }
            _ => self.look(id),
        }
    }
}

fn main() {
    let words: Vec<String> = env::args().collect();
    let [_, seed, calls, script] = words.as_slice() else {
        panic!("beside SEED CALLS SCRIPT");
    };
    let mut world = World::new(seed.parse().expect("a seed"));
    for _ in 0..calls.parse().expect("a count") {
        world.call();
    }
    for id in 0..3 {
        world.look(id);
    }
    fs::write(script, &world.script).expect("the script is written");
    print!("{}", world.answers);
}
