//! The proved calls, through the C header and a C program that makes them.

use std::io::{BufReader, Read, Write};
use std::process::{Child, ChildStdin, ChildStdout, Command, Stdio};
use std::sync::Mutex;

use crate::{
    program, Answer, Bounded, Built, Calls, Class, Count, Depth, Inspection, Limits, Question,
    Refusal, Service, SheetProgram,
};

/// The calls as `harness/c/calls.c` numbers them.
#[derive(Clone, Copy, Default)]
enum Call {
    #[default]
    Admit,
    Build,
    Inspect,
    SlotView,
    CountFlow,
    CountInput,
    CountOutput,
    DepthFlow,
    DepthInput,
    DepthOutput,
    Turn,
}

/// A call as the C program reads it.
#[derive(Default)]
struct Record<'r> {
    call: Call,
    /// Of a call that is told it.
    side: u64,
    ports: u64,
    slots: u64,
    /// Those of a call that takes limits, none for the others.
    limits: &'r [u16],
    list: &'r [u16],
    frame: &'r [u16],
    /// Turn's second buffer.
    second: &'r [u16],
    /// Service count: the start.
    slot: u64,
    length: u64,
    /// The flow or the port that is counted, or asked about.
    whose: u64,
}

impl Record<'_> {
    fn bytes(&self) -> Vec<u8> {
        let numbers = [
            self.call as u64,
            self.side,
            self.ports,
            self.slots,
            self.list.len() as u64,
            self.frame.len() as u64,
            self.second.len() as u64,
            self.slot,
            self.length,
            self.whose,
        ];
        let mut bytes: Vec<u8> = numbers.into_iter().flat_map(u64::to_ne_bytes).collect();
        let slices = [self.limits, self.list, self.frame, self.second];
        let numbers = slices.into_iter().flatten().copied();
        bytes.extend(numbers.flat_map(u16::to_ne_bytes));
        bytes
    }
}

/// What a call wrote to and must not have, as `harness/c/calls.c` numbers it.
const HARMS: [&str; 9] = [
    "nothing",
    "the limits",
    "bytes around the limits",
    "the list",
    "bytes around the list",
    "the frame",
    "bytes around the frame",
    "the second buffer",
    "bytes around the second buffer",
];

/// The proved frame builder, called by a C program.
#[derive(Debug)]
pub struct InC {
    program: String,
    /// Running programs that no thread is using.
    idle: Mutex<Vec<Process>>,
}

impl Default for InC {
    fn default() -> InC {
        InC::over(env!("CALLS_IN_C"))
    }
}

impl InC {
    /// A builder that must be sent back: Build writes one entry past the frame.
    pub fn writing_outside() -> InC {
        InC::over(env!("CALLS_WRITING_OUTSIDE"))
    }

    /// The builder that this program calls, which reads the same records.
    pub fn over(program: &str) -> InC {
        InC {
            program: program.into(),
            idle: Mutex::default(),
        }
    }

    /// The answer's number and its three values, a count's cells and lead, a depth's parts and cells; a frame or a second buffer lent for
    /// writing is written.
    fn make(&self, record: &[u8], written: &mut [u16]) -> [u64; 4] {
        let idle = self.idle.lock().expect("no thread panics here").pop();
        let mut process = idle.unwrap_or_else(|| Process::start(&self.program));
        let [number, first, second, third, harm] = process.ask(record, written);
        let touched = HARMS.get(harm as usize).unwrap_or(&"something");
        assert!(harm == 0, "wrote to {touched}");
        let mut idle = self.idle.lock().expect("no thread panics here");
        idle.push(process);
        [number, first, second, third]
    }
}

/// A running C program.
#[derive(Debug)]
struct Process {
    child: Child,
    input: ChildStdin,
    output: BufReader<ChildStdout>,
}

impl Process {
    fn start(program: &str) -> Process {
        let mut child = Command::new(program)
            .stdin(Stdio::piped())
            .stdout(Stdio::piped())
            .spawn()
            .expect("the C program is built");
        let output = child.stdout.take().expect("standard output is piped");
        Process {
            input: child.stdin.take().expect("standard input is piped"),
            output: BufReader::new(output),
            child,
        }
    }

    fn ask(&mut self, record: &[u8], written: &mut [u16]) -> [u64; 5] {
        let sent = self.input.write_all(record);
        sent.expect("the C program reads whole records");
        let answer = [(); 5].map(|()| {
            let mut number = [0; 8];
            let read = self.output.read_exact(&mut number);
            read.expect("the C program answers");
            u64::from_ne_bytes(number)
        });
        let mut bytes = vec![0; 2 * written.len()];
        let read = self.output.read_exact(&mut bytes);
        read.expect("the C program sends the frame back");
        for (entry, bytes) in written.iter_mut().zip(bytes.chunks_exact(2)) {
            *entry = u16::from_ne_bytes([bytes[0], bytes[1]]);
        }
        answer
    }
}

impl Drop for Process {
    fn drop(&mut self) {
        // A program that has ended by itself is only waited for.
        let _ = self.child.kill();
        let _ = self.child.wait();
    }
}

/// No other numbers may come back: 0 stands where a refusal has no value.
fn refusal_of(numbers: [u64; 4]) -> Refusal {
    match numbers {
        [1, 0, 0, 0] => Refusal::Ports,
        [2, 0, 0, 0] => Refusal::Slots,
        [3, 0, 0, 0] => Refusal::ListLength,
        [4, 0, 0, 0] => Refusal::FrameLength,
        [5, port, cells, 0] => Refusal::InputLoad { port, cells },
        [6, port, cells, 0] => Refusal::OutputLoad { port, cells },
        [11, 0, 0, 0] => Refusal::SlotNumber,
        [12, 0, 0, 0] => Refusal::FlowOrPort,
        [13, 0, 0, 0] => Refusal::RunLength,
        [14, 0, 0, 0] => Refusal::Entries,
        [15, 0, 0, 0] => Refusal::SecondLength,
        [21, 0, 0, 0] => Refusal::TooManyFlows,
        [22, 0, 0, 0] => Refusal::FlowPort,
        [23, 0, 0, 0] => Refusal::FlowLink,
        [24, output, link, cells] => Refusal::LinkLoad {
            output,
            link,
            cells,
        },
        other => panic!("{other:?} is no answer of this call"),
    }
}

impl Calls for InC {
    fn admit(&self, ports: u64, slots: u64, list: &[u16], limits: &Limits) -> Answer {
        let record = Record {
            call: Call::Admit,
            ports,
            slots,
            limits,
            list,
            ..Record::default()
        };
        match self.make(&record.bytes(), &mut []) {
            [0, 0, 0, 0] => Ok(()),
            refused => Err(refusal_of(refused)),
        }
    }

    fn build(
        &self,
        ports: u64,
        slots: u64,
        list: &[u16],
        limits: &Limits,
        frame: &mut [u16],
    ) -> Built {
        let record = Record {
            call: Call::Build,
            ports,
            slots,
            limits,
            list,
            frame,
            ..Record::default()
        };
        match self.make(&record.bytes(), frame) {
            [0, settled, 0, 0] => Ok(settled),
            refused => Err(refusal_of(refused)),
        }
    }

    fn inspect(
        &self,
        side: u64,
        ports: u64,
        slots: u64,
        list: &[u16],
        frame: &[u16],
    ) -> Inspection {
        let record = Record {
            call: Call::Inspect,
            side,
            ports,
            slots,
            list,
            frame,
            ..Record::default()
        };
        match self.make(&record.bytes(), &mut []) {
            [0, 0, 0, 0] => Inspection::Clean,
            [101, slot, port, 0] => Inspection::WrongEntry { slot, port },
            [102, slot, port, 0] => Inspection::PortTwice { slot, port },
            [103, flow, 0, 0] => Inspection::FlowCount { flow },
            [104, slot, size, 0] => Inspection::UnbalancedBlock { slot, size },
            refused => Inspection::Refused(refusal_of(refused)),
        }
    }

    fn turn(
        &self,
        side: u64,
        ports: u64,
        slots: u64,
        list: &[u16],
        frame: &[u16],
        second: &mut [u16],
    ) -> Answer {
        let record = Record {
            call: Call::Turn,
            side,
            ports,
            slots,
            list,
            frame,
            second,
            ..Record::default()
        };
        match self.make(&record.bytes(), second) {
            [0, 0, 0, 0] => Ok(()),
            refused => Err(refusal_of(refused)),
        }
    }

    fn slot_view<'f>(
        &self,
        ports: u64,
        slots: u64,
        frame: &'f [u16],
        slot: u64,
        number: &mut u64,
    ) -> &'f [u16] {
        let record = Record {
            call: Call::SlotView,
            ports,
            slots,
            frame,
            slot,
            ..Record::default()
        };
        let numbers = self.make(&record.bytes(), &mut []);
        let [answer, start, size, _] = numbers;
        *number = match answer {
            0 => 0,
            _ => refusal_of(numbers).number(),
        };
        let rest = frame.get(start as usize..);
        let part = rest.and_then(|rest| rest.get(..size as usize));
        part.expect("the part is within the frame")
    }

    fn service_count(
        &self,
        side: u64,
        ports: u64,
        slots: u64,
        list: &[u16],
        frame: &[u16],
        (class, (start, length)): Question,
    ) -> Service {
        let (call, whose) = match class {
            Class::Flow { number } => (Call::CountFlow, number),
            Class::Input { port } => (Call::CountInput, port),
            Class::Output { port } => (Call::CountOutput, port),
        };
        let record = Record {
            call,
            side,
            ports,
            slots,
            list,
            frame,
            slot: start,
            length,
            whose,
            ..Record::default()
        };
        match self.make(&record.bytes(), &mut []) {
            [0, cells, lead, 0] => Ok(Count {
                cells,
                // The same 64 bits, read with a sign.
                lead: lead as i64,
            }),
            refused => Err(refusal_of(refused)),
        }
    }

    fn depth(&self, ports: u64, slots: u64, list: &[u16], class: Class) -> Bounded {
        let (call, whose) = match class {
            Class::Flow { number } => (Call::DepthFlow, number),
            Class::Input { port } => (Call::DepthInput, port),
            Class::Output { port } => (Call::DepthOutput, port),
        };
        let record = Record {
            call,
            ports,
            slots,
            list,
            whose,
            ..Record::default()
        };
        match self.make(&record.bytes(), &mut []) {
            [0, parts, cells, 0] => Ok(Depth { parts, cells }),
            refused => Err(refusal_of(refused)),
        }
    }
}

impl SheetProgram for InC {
    fn respond(&self, sheet: &[u8]) -> Vec<u8> {
        program::respond(sheet)
    }
}
