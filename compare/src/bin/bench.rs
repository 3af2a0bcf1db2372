//! Reads bench lines from standard input, and prints for each what a module makes of it.

use compare::{
    Answer, ByteMatcher, Matcher, Memory, Module, PageMemory, PointMatcher, Refusal, RowMemory,
};
use std::error::Error;
use std::io::{self, BufRead, BufWriter, Write};
use std::process::ExitCode;

const USAGE: &str = "usage: bench [--pages N | --rows N] [--matcher byte|point] [--number N]";

const PAGE: usize = 256;
const ROW: usize = 386;

/// The memory of a module, by how many templates it has room for.
#[derive(Clone, Copy)]
enum MemoryKind {
    Pages(u16),
    Rows(u16),
}

/// What a module is made of.
struct Options {
    memory: Option<MemoryKind>,
    by_points: bool,
    number: u16,
}

impl Options {
    fn read(words: &[String]) -> Result<Options, String> {
        let mut options = Options {
            memory: None,
            by_points: false,
            number: 1,
        };
        for pair in words.chunks(2) {
            let [name, value] = pair else {
                return Err(USAGE.to_string());
            };
            options.set(name, value)?;
        }
        Ok(options)
    }

    fn set(&mut self, name: &str, value: &str) -> Result<(), String> {
        match name {
            "--pages" => self.set_memory(MemoryKind::Pages(number_of(value)?)),
            "--rows" => self.set_memory(MemoryKind::Rows(number_of(value)?)),
            "--matcher" => {
                self.by_points = match value {
                    "byte" => false,
                    "point" => true,
                    _ => return Err("--matcher wants byte or point".to_string()),
                };
                Ok(())
            }
            "--number" => {
                self.number = number_of(value)?;
                Ok(())
            }
            _ => Err(USAGE.to_string()),
        }
    }

    fn set_memory(&mut self, kind: MemoryKind) -> Result<(), String> {
        match self.memory.replace(kind) {
            None => Ok(()),
            Some(_) => Err("a module has one memory: --pages or --rows, once".to_string()),
        }
    }
}

fn number_of(value: &str) -> Result<u16, String> {
    let number = value.parse();
    number.map_err(|_| "--pages, --rows and --number want a number from 0 to 65535".to_string())
}

fn digit_value(digit: u8) -> Option<u8> {
    match digit {
        b'0'..=b'9' => Some(digit - b'0'),
        b'A'..=b'F' => Some(digit - b'A' + 10),
        _ => None,
    }
}

/// The bytes whose digits stand behind one blank.
fn bytes_behind(rest: &[u8]) -> Option<Vec<u8>> {
    let (pairs, last) = rest.strip_prefix(b" ")?.as_chunks();
    if !last.is_empty() {
        return None;
    }
    let byte_of = |&[high, low]: &[u8; 2]| Some(digit_value(high)? << 4 | digit_value(low)?);
    pairs.iter().map(byte_of).collect()
}

/// A module on the bench, with buffers that serve all its lines.
struct Session<M, S> {
    module: Module<M, S>,
    out: [u8; 2048],
    work: [u8; 384],
}

impl<M: Matcher, S: Memory> Session<M, S> {
    /// Makes the call that a line asks for; none for an ill-formed line.
    fn call(&mut self, line: &[u8]) -> Option<Result<Answer, Refusal>> {
        let Session { module, out, work } = self;
        match line {
            [b'P', rest @ ..] => Some(module.packet(&bytes_behind(rest)?, out, work)),
            [b'F', rest @ ..] => {
                let bytes = bytes_behind(rest)?;
                let (&quality, scan) = bytes.split_first()?;
                Some(module.finger(scan, quality, out, work))
            }
            [b'S'] => Some(module.second(out, work)),
            _ => None,
        }
    }

    /// Takes a line, and prints what comes of it.
    fn take_line(&mut self, line: &[u8], output: &mut impl Write) -> io::Result<()> {
        match self.call(line) {
            None => writeln!(output, "?"),
            Some(Err(refusal)) => writeln!(output, "!{}", refusal as u8),
            Some(Ok(answer)) => {
                for (at, outcome) in answer.outcomes().enumerate() {
                    let blank = if at == 0 { "" } else { " " };
                    write!(
                        output,
                        "{blank}{:02X}{:02X}",
                        outcome.command, outcome.code as u8
                    )?;
                }
                write!(output, ":")?;
                for byte in answer.written(&self.out) {
                    write!(output, "{byte:02X}")?;
                }
                writeln!(output)
            }
        }
    }
}

/// Runs a module until the input ends.
fn serve<M: Matcher, S: Memory>(module: Module<M, S>) -> io::Result<()> {
    let mut session = Session {
        module,
        out: [0; 2048],
        work: [0; 384],
    };
    let mut output = BufWriter::new(io::stdout().lock());
    for line in io::stdin().lock().split(b'\n') {
        session.take_line(&line?, &mut output)?;
    }
    output.flush()
}

/// Makes the memory that was asked for, and runs a module over it.
fn with_memory<M: Matcher>(options: &Options, matcher: M) -> io::Result<()> {
    match options.memory.unwrap_or(MemoryKind::Pages(16)) {
        MemoryKind::Pages(count) => {
            let memory = PageMemory::new(vec![0; usize::from(count) * PAGE]);
            serve(Module::new(matcher, memory, options.number))
        }
        MemoryKind::Rows(count) => {
            let memory = RowMemory::new(vec![0; usize::from(count) * ROW]);
            serve(Module::new(matcher, memory, options.number))
        }
    }
}

fn run() -> Result<(), Box<dyn Error>> {
    let words: Vec<String> = std::env::args().skip(1).collect();
    let options = Options::read(&words)?;
    if options.by_points {
        with_memory(&options, PointMatcher)?;
    } else {
        with_memory(&options, ByteMatcher)?;
    }
    Ok(())
}

fn main() -> ExitCode {
    match run() {
        Ok(()) => ExitCode::SUCCESS,
        Err(error) => {
            eprintln!("{error}");
            ExitCode::FAILURE
        }
    }
}
