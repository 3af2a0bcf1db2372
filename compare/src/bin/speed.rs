//! Gives a module the same work again and again, so that its speed can be measured from outside.

use compare::{
    Answer, ByteMatcher, Command, Form, Matcher, Memory, Module, PageMemory, Parameter,
    PointMatcher, Refusal, Request, RowMemory,
};
use std::process::ExitCode;

const USAGE: &str = "usage: speed WORKLOAD COUNT
the workloads are frames, list, identify, identify_bytes, enrol and delete";

/// The number of the module.
const OWN: u16 = 1;
/// The quality of every scan.
const QUALITY: u8 = 80;

const PAGE: usize = 256;
const ROW: usize = 386;
/// The template in a row.
const ROW_TEMPLATE: usize = 384;

/// The templates of a full row memory, each under an ID of its own.
const HELD: u16 = 500;
/// The pages of a full page memory.
const PAGES: u16 = 64;
/// The IDs that come and go in a full memory.
const IDS: u16 = 1000;

/// The points of a template, and their bytes.
const POINTS: u8 = 40;
const POINT_BYTES: usize = 120;
/// Where the noise of a finger begins that nobody has enrolled.
const STRANGER: u32 = 0xF16E_0000;

/// How many of the last bytes that a call writes are taken into the checksum.
const LAST: usize = 15;
/// What refusals are told from codes by.
const REFUSED: u32 = 256;

/// The parameters that a host can read.
const READABLE: [Parameter; 9] = [
    Parameter::Timeout,
    Parameter::EnrollMode,
    Parameter::SecurityLevel,
    Parameter::SendScanSuccess,
    Parameter::NetworkMode,
    Parameter::TemplateSize,
    Parameter::ModuleId,
    Parameter::EnrolledFinger,
    Parameter::AvailableFinger,
];

/// A template of so many bytes, with points of noise, the same in every run.
fn of_noise(seed: u32, size: usize) -> Vec<u8> {
    let mut noise = seed;
    let mut template = vec![0; size];
    template[0] = POINTS;
    for byte in &mut template[1..=POINT_BYTES] {
        noise = noise.wrapping_mul(1_664_525).wrapping_add(1_013_904_223);
        *byte = (noise >> 24) as u8;
    }
    template
}

/// The frame of a request that carries no data.
fn plain(command: Command, param: u16, flag: u8) -> Vec<u8> {
    let request = Request {
        form: Form::Standard,
        command: command as u8,
        param: u32::from(param),
        size: 0,
        flag,
        data: &[],
    };
    request.to_frame()
}

/// ET of an ID's template, which replaces those that the ID has.
fn enroll_frame(id: u16, size: usize) -> Vec<u8> {
    let request = Request {
        form: Form::Standard,
        command: Command::EnrollTemplate as u8,
        param: u32::from(id),
        size: size as u32,
        flag: 0,
        data: &of_noise(u32::from(id), size),
    };
    request.to_frame()
}

/// A checksum of what calls answer: two engines that do the same work have the same.
struct Checksum(u32);

impl Checksum {
    fn fold(&mut self, value: u32) {
        self.0 = self.0.wrapping_mul(31).wrapping_add(value);
    }

    /// Takes in what a call gave.
    fn take(&mut self, given: Result<Answer, Refusal>, out: &[u8]) {
        match given {
            Err(refusal) => self.fold(REFUSED + refusal as u32),
            Ok(answer) => {
                for outcome in answer.outcomes() {
                    self.fold(outcome.code as u32);
                }
                let written = answer.written(out);
                self.fold(written.len() as u32);
                for byte in &written[written.len().saturating_sub(LAST)..] {
                    self.fold(u32::from(*byte));
                }
            }
        }
    }
}

/// A module at work, with the buffers that its calls are lent and a checksum of what they answered.
struct Workbench<M, S> {
    module: Module<M, S>,
    out: [u8; 2048],
    work: [u8; 384],
    sum: Checksum,
}

impl<M: Matcher, S: Memory> Workbench<M, S> {
    fn new(matcher: M, memory: S) -> Workbench<M, S> {
        Workbench {
            module: Module::new(matcher, memory, OWN),
            out: [0; 2048],
            work: [0; 384],
            sum: Checksum(0),
        }
    }

    fn packet(&mut self, frame: &[u8]) {
        let given = self.module.packet(frame, &mut self.out, &mut self.work);
        self.sum.take(given, &self.out);
    }

    fn finger(&mut self, scan: &[u8]) {
        let given = self
            .module
            .finger(scan, QUALITY, &mut self.out, &mut self.work);
        self.sum.take(given, &self.out);
    }
}

fn pages(count: u16) -> PageMemory {
    PageMemory::new(vec![0; usize::from(count) * PAGE])
}

/// A module over a row memory that is full.
fn full<M: Matcher>(matcher: M) -> Workbench<M, RowMemory> {
    let memory = RowMemory::new(vec![0; usize::from(HELD) * ROW]);
    let mut bench = Workbench::new(matcher, memory);
    for id in 1..=HELD {
        bench.packet(&enroll_frame(id, ROW_TEMPLATE));
    }
    bench
}

/// The parameters are read, one after the other.
fn frames(count: usize) -> u32 {
    let mut bench = Workbench::new(ByteMatcher, pages(16));
    let asked = READABLE.map(|parameter| plain(Command::ReadParameter, 0, parameter as u8));
    for frame in asked.iter().cycle().take(count) {
        bench.packet(frame);
    }
    bench.sum.0
}

/// All that is held is listed.
fn list(count: usize) -> u32 {
    let mut bench = full(ByteMatcher);
    let frame = plain(Command::ListTemplates, 0, 0);
    for _ in 0..count {
        bench.packet(&frame);
    }
    bench.sum.0
}

/// A finger that nobody has enrolled is looked for among all.
fn identify<M: Matcher>(matcher: M, count: usize) -> u32 {
    let mut bench = full(matcher);
    let frame = plain(Command::Identify, 0, 0);
    let scan = of_noise(STRANGER, ROW_TEMPLATE);
    for _ in 0..count {
        bench.packet(&frame);
        bench.finger(&scan);
    }
    bench.sum.0
}

/// ET for the IDs from 1 to the last.
fn enrolling(last: u16, size: usize) -> Vec<Vec<u8>> {
    (1..=last).map(|id| enroll_frame(id, size)).collect()
}

/// A page memory is filled, and emptied at once.
fn enroll(count: usize) -> u32 {
    let mut bench = Workbench::new(ByteMatcher, pages(PAGES));
    let frames = enrolling(PAGES, PAGE);
    let empty = plain(Command::DeleteAll, 0, 0);
    for _ in 0..count {
        for frame in &frames {
            bench.packet(frame);
        }
        bench.packet(&empty);
    }
    bench.sum.0
}

/// The oldest template of a full memory goes, and a new one comes.
fn delete(count: usize) -> u32 {
    let mut bench = full(ByteMatcher);
    let deleting: Vec<_> = (1..=IDS).map(|id| plain(Command::Delete, id, 0)).collect();
    let enrolling = enrolling(IDS, ROW_TEMPLATE);
    let newest = enrolling.iter().cycle().skip(usize::from(HELD));
    for (oldest, newest) in deleting.iter().cycle().zip(newest).take(count) {
        bench.packet(oldest);
        bench.packet(newest);
    }
    bench.sum.0
}

/// The checksum of a workload that is done so many times.
fn sum_of(workload: &str, count: usize) -> Option<u32> {
    match workload {
        "frames" => Some(frames(count)),
        "list" => Some(list(count)),
        "identify" => Some(identify(PointMatcher, count)),
        "identify_bytes" => Some(identify(ByteMatcher, count)),
        "enrol" => Some(enroll(count)),
        "delete" => Some(delete(count)),
        _ => None,
    }
}

fn run() -> Option<()> {
    let words: Vec<String> = std::env::args().skip(1).collect();
    let [workload, count] = words.as_slice() else {
        return None;
    };
    let count: u32 = count.parse().ok()?;
    let sum = sum_of(workload, count as usize)?;
    println!("{workload} {count}: {sum:08x}");
    Some(())
}

fn main() -> ExitCode {
    match run() {
        Some(()) => ExitCode::SUCCESS,
        None => {
            eprintln!("{USAGE}");
            ExitCode::FAILURE
        }
    }
}
