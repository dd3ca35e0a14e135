//! ABRO in Rust: `abro TEXT` prints the instants in which O is emitted.

#[repr(C)]
#[derive(Default)]
struct Fault {
    code: u64,
    line: u64,
    column: u64,
}

extern "C" {
    fn est_load_module(
        main: *const u8,
        main_length: usize,
        text: *const u8,
        text_length: usize,
        machine: *mut *mut u8,
        fault: *mut Fault,
    ) -> u64;
    fn est_ask(machine: *mut u8, question: u64, argument: u64) -> u64;
    fn free(block: *mut u8);
}

/// A machine that gives its memory back.
struct Machine(*mut u8);

impl Machine {
    fn load(main: &str, text: &[u8]) -> Result<Machine, Fault> {
        let (mut machine, mut fault) = (std::ptr::null_mut(), Fault::default());
        let code = unsafe {
            est_load_module(main.as_ptr(), main.len(), text.as_ptr(), text.len(), &mut machine, &mut fault)
        };
        if code == 0 { Ok(Machine(machine)) } else { Err(fault) }
    }

    fn react(&mut self, inputs: u64) -> Option<u64> {
        unsafe { (est_ask(self.0, 0, inputs) == 0).then(|| est_ask(self.0, 1, 0)) }
    }
}

impl Drop for Machine {
    fn drop(&mut self) {
        unsafe {
            est_ask(self.0, 6, 0);
            free(self.0);
        }
    }
}

fn main() {
    let Some(path) = std::env::args().nth(1) else {
        eprintln!("usage: abro TEXT");
        std::process::exit(2);
    };
    let text = std::fs::read(&path).unwrap_or_else(|fault| {
        eprintln!("{path}: {fault}");
        std::process::exit(2);
    });
    let mut machine = match Machine::load("ABRO", &text) {
        Ok(machine) => machine,
        Err(fault) => panic!("fault {} at {}:{}", fault.code, fault.line, fault.column),
    };
    let (a, b, r, o) = (1, 2, 4, 8);
    for (instant, inputs) in [0, a, b, a | b, r, a | b, a | b | r].into_iter().enumerate() {
        if machine.react(inputs).is_some_and(|outputs| outputs & o != 0) {
            println!("{}", instant + 1);
        }
    }
}
