//! A toy runtime with handshakes, stepped beside the model: the first answer that differs is reported, and then the status is 1.
//!
//! Three threads call, return, and go into native code and back; a coordinator asks one thread after the other how deep its stack is. A
//! thread in native is held meanwhile; any other stops at its next poll and answers itself. `toy careless` lets a thread that is held
//! come back from native, as a runtime whose transition doesn't look would.

mod model;

use model::Model;
use std::process::ExitCode;

const THREADS: usize = 3;
const DEPTH: usize = 8;
const STEPS: usize = 20_000;

#[derive(Clone, Copy, PartialEq)]
enum State {
    Java,
    Native,
    AtPoll,
}

/// How far the handshake is: none is open; the thread at this place was told, is held, or was served.
#[derive(Clone, Copy, PartialEq)]
enum Phase {
    Idle,
    Told(usize),
    Held(usize),
    Served,
}

struct Toy {
    model: Model,
    events: usize,
    states: [State; THREADS],
    depths: [usize; THREADS],
    phase: Phase,
    operation: usize,
    is_careless: bool,
    seed: u32,
}

/// What differs first.
struct Differs(String);

type Agrees = Result<(), Differs>;

impl Toy {
    /// What the runtime did, as a line, and what it answered itself.
    fn did(&mut self, line: &str, answer: &str) -> Agrees {
        self.events += 1;
        match self.model.line(line) {
            Ok(said) if said == answer => Ok(()),
            Ok(said) => Err(Differs(format!("event {}, `{line}`: the runtime said `{answer}`, the model `{said}`", self.events))),
            Err(fault) => Err(Differs(format!("event {}, `{line}`: fault {} of the model", self.events, fault.0))),
        }
    }

    fn chance(&mut self, below: usize) -> usize {
        self.seed = self.seed.wrapping_mul(1_103_515_245).wrapping_add(12_345);
        (self.seed >> 16) as usize % below
    }

    fn start(&mut self, at: usize) -> Agrees {
        self.did("start", &format!("thread {} place {at}", at + 1))?;
        self.publish(at)?;
        self.did(&format!("wake {at}"), "ok")?;
        self.did(&format!("cross {at}"), "go")
    }

    fn publish(&mut self, at: usize) -> Agrees {
        self.did(&format!("begin {at}"), "ok")?;
        self.did(&format!("end {at}"), "ok")
    }

    /// The callback: it answers how deep the stack is.
    fn serve(&mut self, at: usize) -> Agrees {
        self.publish(at)?;
        self.did(&format!("finish {at}"), &format!("reply {}", self.depths[at]))?;
        self.phase = Phase::Served;
        self.did(&format!("clear {at}"), "ok")
    }

    /// A poll stops the thread that was told.
    fn poll(&mut self, at: usize, line: &str) -> Agrees {
        if self.phase == Phase::Told(at) {
            self.states[at] = State::AtPoll;
            return self.did(&format!("{line} {at}"), &format!("stop {}", self.operation));
        }
        self.states[at] = State::Java;
        self.did(&format!("{line} {at}"), "go")
    }

    fn coordinate(&mut self) -> Agrees {
        match self.phase {
            Phase::Idle => {
                let at = self.chance(THREADS);
                self.operation += 1;
                self.did(&format!("ask depth {}", at + 1), &format!("asked {}", self.operation))?;
                self.did("open", &format!("open {} handshake", self.operation))?;
                self.phase = Phase::Told(at);
                self.did(&format!("tell {}", at + 1), "told")
            }
            Phase::Told(at) if self.states[at] == State::Native => {
                self.phase = Phase::Held(at);
                self.did(&format!("hold {at}"), "ok")
            }
            Phase::Told(_) => Ok(()),
            Phase::Held(at) => {
                self.serve(at)?;
                self.did(&format!("release {at}"), "ok")
            }
            Phase::Served => {
                self.phase = Phase::Idle;
                self.did("close", &format!("closed {}", self.operation))
            }
        }
    }

    fn run(&mut self, at: usize) -> Agrees {
        match (self.states[at], self.chance(4)) {
            (State::Java, 0) if self.depths[at] < DEPTH => {
                self.depths[at] += 1;
                self.did(&format!("enter {at} 0"), "entered")
            }
            (State::Java, 1) if self.depths[at] > 0 => {
                self.depths[at] -= 1;
                self.poll(at, "leave")
            }
            (State::Java, 2) => {
                self.states[at] = State::Native;
                self.did(&format!("tonative {at}"), "ok")
            }
            (State::Java, _) => self.poll(at, "edge"),
            (State::Native, _) if self.phase == Phase::Held(at) && !self.is_careless => Ok(()),
            (State::Native, _) => {
                self.did(&format!("wake {at}"), "ok")?;
                self.poll(at, "cross")
            }
            (State::AtPoll, _) => {
                self.did(&format!("take {at}"), "ok")?;
                self.serve(at)?;
                self.poll(at, "cross")
            }
        }
    }

    fn play(&mut self) -> Agrees {
        for at in 0..THREADS {
            self.start(at)?;
        }
        for _ in 0..STEPS {
            match self.chance(THREADS + 1) {
                THREADS => self.coordinate()?,
                at => self.run(at)?,
            }
        }
        Ok(())
    }
}

fn main() -> ExitCode {
    let Ok(model) = Model::new(THREADS, 1, 1) else {
        println!("no model");
        return ExitCode::from(2);
    };
    let mut toy = Toy {
        model,
        events: 0,
        states: [State::Java; THREADS],
        depths: [0; THREADS],
        phase: Phase::Idle,
        operation: 0,
        is_careless: std::env::args().nth(1).is_some_and(|word| word == "careless"),
        seed: 1,
    };
    match toy.play() {
        Ok(()) => {
            println!("{} events, all answers the same; {} handshakes", toy.events, toy.operation);
            ExitCode::SUCCESS
        }
        Err(Differs(how)) => {
            println!("{how}");
            ExitCode::FAILURE
        }
    }
}
