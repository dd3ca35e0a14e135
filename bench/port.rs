// What bench/port.py puts before the files of the microstep engine: a reader of its cases, and the types that are made elsewhere.
#![allow(dead_code, unused_imports)]

/// How many statements the engine has looked at, where bench/port.py makes it count.
mod looks {
    use std::sync::atomic::{AtomicUsize, Ordering::Relaxed};

    const COUNTS: bool = false;
    static LOOKS: AtomicUsize = AtomicUsize::new(0);

    /// The statement that is looked at.
    pub fn look<T>(statement: &T) -> &T {
        LOOKS.fetch_add(1, Relaxed);
        statement
    }

    /// Prints how many cells there are, and at how many statements was looked since it was last asked.
    pub fn print(cells: usize) {
        if COUNTS {
            eprintln!("{cells} {}", LOOKS.swap(0, Relaxed));
        }
    }
}

mod by_hand {
    pub mod interface {
        pub struct Interface {
            pub emittable: u64,
            pub offerable: u64,
            pub len: usize,
        }

        impl Interface {
            pub fn emittable(&self) -> u64 {
                self.emittable
            }
            pub fn offerable(&self) -> u64 {
                self.offerable
            }
            pub fn len(&self) -> usize {
                self.len
            }
        }
    }

    pub mod kernel {
        use super::interface::Interface;
        use crate::est_kernel::statement::Statement;

        pub struct Kernel {
            pub interface: Interface,
            pub root: Statement,
        }

        impl Kernel {
            pub fn interface(&self) -> &Interface {
                &self.interface
            }
            pub fn root(&self) -> &Statement {
                &self.root
            }
        }
    }

    pub mod state {
        use crate::est_kernel::pause_set::PauseSet;

        #[derive(Clone, Copy, PartialEq, Eq)]
        pub enum State {
            Fresh,
            Done,
            Paused(PauseSet),
        }

        pub struct Inputs {
            pub signals: u64,
        }

        #[derive(Clone, Copy)]
        pub struct Outcome {
            pub outputs: u64,
            pub next: State,
        }

        #[derive(Clone, Copy)]
        pub struct Stuck {
            pub undecided: u64,
        }
    }
}

use by_hand::interface::Interface;
use by_hand::kernel::Kernel;
use by_hand::state::{Inputs, State};
use est_kernel::statement::{Connective, InterfaceSignal, LocalSignal, Operands, PauseIndex, Signal, Statement, Test, TrapIndex};
use est_meaning::status::Status;
use est_micro::micro::Micro;
use est_net::net::Net;
use est_rounds::engine::Engine;
use est_rounds::rounds::Rounds;

/// The words of a statement, and the names that are in scope.
struct Reader<'a> {
    words: std::str::SplitWhitespace<'a>,
    signals: Vec<&'a str>,
    locals: Vec<&'a str>,
    traps: Vec<&'a str>,
    pauses: u16,
}

impl<'a> Reader<'a> {
    fn word(&mut self) -> &'a str {
        self.words.next().expect("the statement ends too early")
    }

    fn signal(&mut self) -> Signal {
        let name = self.word();
        if let Some(index) = self.locals.iter().rposition(|each| *each == name) {
            return Signal::Local(LocalSignal { index: index as u16 });
        }
        let index = self.signals.iter().position(|each| *each == name).expect("no signal");
        Signal::Interface(InterfaceSignal { index: index as u8 })
    }

    fn test(&mut self) -> Test {
        let start = self.words.clone();
        match self.word() {
            "not" => Test::Not(Box::new(self.test())),
            "and" => self.joined(Connective::And),
            "or" => self.joined(Connective::Or),
            _ => {
                self.words = start;
                Test::Status(self.signal())
            }
        }
    }

    fn joined(&mut self, connective: Connective) -> Test {
        let (first, second) = (Box::new(self.test()), Box::new(self.test()));
        Test::Joined(connective, Operands { first, second, later: vec![] })
    }

    fn part(&mut self) -> Box<Statement> {
        Box::new(self.statement())
    }

    fn statement(&mut self) -> Statement {
        match self.word() {
            "nothing" => Statement::Nothing,
            "pause" => {
                self.pauses += 1;
                Statement::Pause(PauseIndex { index: self.pauses - 1 })
            }
            "emit" => Statement::Emit(self.signal()),
            "present" => Statement::Present(self.test(), self.part(), self.part()),
            "suspend" => Statement::Suspend(self.test(), self.part()),
            "seq" => Statement::Seq(self.part(), self.part()),
            "par" => Statement::Par(self.part(), self.part()),
            "loop" => Statement::Loop(self.part()),
            "trap" => {
                let name = self.word();
                self.traps.push(name);
                let body = self.part();
                self.traps.pop();
                Statement::Trap(body)
            }
            "exit" => {
                let name = self.word();
                let index = self.traps.iter().rev().position(|each| *each == name).expect("no trap");
                Statement::Exit(TrapIndex { index: index as u16 })
            }
            "local" => {
                let name = self.word();
                self.locals.push(name);
                let body = self.part();
                self.locals.pop();
                Statement::Local(LocalSignal { index: self.locals.len() as u16 }, body)
            }
            word => panic!("{word} begins no statement"),
        }
    }
}

/// The mask of as many signals.
fn first(count: usize) -> u64 {
    if count == 64 { u64::MAX } else { (1 << count) - 1 }
}

/// A kernel with its engine, and the masks of the inputs of its instants.
struct Case {
    kernel: Kernel,
    engine: Micro,
    masks: Vec<u64>,
}

/// The case that four lines tell: the masks, the inputs, the outputs, and the statement.
fn case_of(lines: &[&str]) -> Case {
    let inputs = lines[1].split_whitespace().count();
    let signals: Vec<&str> = lines[1].split_whitespace().chain(lines[2].split_whitespace()).collect();
    let len = signals.len();
    let mask = |word| u64::from_str_radix(word, 16).expect("no mask") & first(inputs);
    let masks = lines[0].split_whitespace().map(mask).collect();
    let mut reader = Reader { words: lines[3].split_whitespace(), signals, locals: vec![], traps: vec![], pauses: 0 };
    let root = reader.statement();
    let interface = Interface { emittable: first(len) & !first(inputs), offerable: first(inputs), len };
    let kernel = Kernel { interface, root };
    let engine = Micro::new(Net::build(&kernel).expect("no table"));
    Case { kernel, engine, masks }
}

/// Runs for that many instants, and prints what that comes to.
fn run(case: &mut Case, instants: usize) {
    let (mut state, mut sum) = (State::Fresh, 0u64);
    for n in 0..instants {
        let signals = case.masks[n % case.masks.len()];
        let Ok(outcome) = case.engine.run(&case.kernel, &state, &Inputs { signals }) else {
            panic!("instant {n} is stuck");
        };
        looks::print(case.engine.net().cells());
        sum = sum.wrapping_mul(31).wrapping_add(outcome.outputs);
        state = match outcome.next {
            State::Paused(pauses) => State::Paused(pauses),
            State::Fresh | State::Done => State::Fresh,
        };
    }
    println!("{} {} {sum:016x}", case.engine.net().cells(), case.engine.steps());
}

/// The same on the plain engine, which has no cells: prints the sum of the outputs.
fn run_plain(case: &Case, instants: usize) {
    let mut engine = Rounds::new();
    let (mut state, mut sum) = (State::Fresh, 0u64);
    for n in 0..instants {
        let signals = case.masks[n % case.masks.len()];
        let Ok(outcome) = engine.react(&case.kernel, &state, &Inputs { signals }) else {
            panic!("instant {n} is stuck");
        };
        sum = sum.wrapping_mul(31).wrapping_add(outcome.outputs);
        state = match outcome.next {
            State::Paused(pauses) => State::Paused(pauses),
            State::Fresh | State::Done => State::Fresh,
        };
    }
    println!("{sum:016x}");
}

/// Runs an instant for each mask, and prints what each cell was decided to be in it. Where it is stuck, the state stays.
fn print_tables(case: &mut Case) {
    let mut state = State::Fresh;
    print!("{}", case.engine.net().cells());
    for signals in &case.masks {
        let answer = case.engine.run(&case.kernel, &state, &Inputs { signals: *signals });
        looks::print(case.engine.net().cells());
        let sign = |cell| match case.engine.net().value(cell) {
            Some(true) => '1',
            Some(false) => '0',
            None => '?',
        };
        print!(" {}", (0..case.engine.net().cells()).map(sign).collect::<String>());
        if let Ok(outcome) = answer {
            state = outcome.next;
        }
    }
    println!();
}

fn main() {
    let words: Vec<String> = std::env::args().collect();
    let text = std::fs::read_to_string(&words[1]).expect("no case");
    let lines: Vec<&str> = text.lines().collect();
    let instants = || words[2].parse().expect("no number of instants");
    match words.len() {
        4 => run_plain(&case_of(&lines), instants()),
        3 => run(&mut case_of(&lines), instants()),
        _ => lines.chunks(4).for_each(|each| print_tables(&mut case_of(each))),
    }
}
