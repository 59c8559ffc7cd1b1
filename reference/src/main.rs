//! The command line of the second implementation (see README.md).

use npp_reference::reached::Reached;
use npp_reference::{generate, records, script, text};
use std::ffi::OsString;
use std::fs::File;
use std::io::{self, BufReader, BufWriter, Read, Write};
use std::process::ExitCode;

const USAGE: &str = "usage: npp-reference [FILE]
       npp-reference calls|records|expected [FILE]
       npp-reference generate SEED KIND [SIZE]
       npp-reference generate-calls SEED [SIZE]
       npp-reference reached|reached-calls FILE...";

const BUFFER: usize = 1 << 16;

fn main() -> ExitCode {
    let arguments: Vec<OsString> = std::env::args_os().skip(1).collect();
    let mut output = BufWriter::with_capacity(BUFFER, io::stdout().lock());
    let result = run(&arguments, &mut output);
    // The lines before a fault are written too.
    match result.and(output.flush()) {
        Ok(()) => ExitCode::SUCCESS,
        Err(error) => {
            let _ = output.flush();
            eprintln!("npp-reference: {error}");
            ExitCode::FAILURE
        }
    }
}

fn run(arguments: &[OsString], output: &mut impl Write) -> io::Result<()> {
    let mode = arguments
        .first()
        .and_then(|argument| argument.to_str())
        .unwrap_or("");
    let rest = arguments.get(1..).unwrap_or(&[]);
    match mode {
        "calls" => run_calls(rest, output),
        "records" => write_records(rest, output),
        "expected" => output.write_all(text::expected(&whole_text(rest)?).as_bytes()),
        "generate" => generate_records(rest, output),
        "generate-calls" => generate_calls(rest, output),
        "reached" => count_reached(rest, output, |reached, mut file| {
            reached.count_records(&mut file)
        }),
        "reached-calls" => count_reached(rest, output, |reached, file| reached.count_calls(file)),
        _ => records::write_lines(&mut input(arguments)?, output),
    }
}

type Input = BufReader<Box<dyn Read>>;

/// The one file named, or standard input.
fn input(files: &[OsString]) -> io::Result<Input> {
    match files {
        [] => Ok(BufReader::with_capacity(BUFFER, Box::new(io::stdin()))),
        [file] => open(file),
        _ => Err(usage()),
    }
}

fn open(file: &OsString) -> io::Result<Input> {
    let named = |error| io::Error::other(format!("{}: {error}", file.to_string_lossy()));
    Ok(BufReader::with_capacity(
        BUFFER,
        Box::new(File::open(file).map_err(named)?),
    ))
}

fn usage() -> io::Error {
    io::Error::other(USAGE)
}

fn whole_text(files: &[OsString]) -> io::Result<String> {
    io::read_to_string(input(files)?)
}

fn run_calls(files: &[OsString], output: &mut impl Write) -> io::Result<()> {
    script::run(input(files)?, |line| writeln!(output, "{line}"))
}

fn write_records(files: &[OsString], output: &mut impl Write) -> io::Result<()> {
    let bytes = text::records(&whole_text(files)?).map_err(io::Error::other)?;
    output.write_all(&bytes)
}

fn number<T: std::str::FromStr>(argument: &OsString) -> io::Result<T> {
    argument
        .to_str()
        .and_then(|text| text.parse().ok())
        .ok_or_else(usage)
}

fn generate_records(arguments: &[OsString], output: &mut impl Write) -> io::Result<()> {
    let (seed, kind, size) = match arguments {
        [seed, kind] => (number(seed)?, kind, 200),
        [seed, kind, size] => (number(seed)?, kind, number(size)?),
        _ => return Err(usage()),
    };
    let file = kind
        .to_str()
        .and_then(|kind| generate::record_file(seed, kind, size));
    let kinds = || io::Error::other(format!("kinds: {}", generate::FILE_KINDS.join(" ")));
    output.write_all(&file.ok_or_else(kinds)?)
}

fn generate_calls(arguments: &[OsString], output: &mut impl Write) -> io::Result<()> {
    let (seed, size) = match arguments {
        [seed] => (number(seed)?, 200),
        [seed, size] => (number(seed)?, number(size)?),
        _ => return Err(usage()),
    };
    output.write_all(generate::call_script(seed, size).as_bytes())
}

fn count_reached(
    files: &[OsString],
    output: &mut impl Write,
    count: impl Fn(&mut Reached, Input) -> io::Result<()>,
) -> io::Result<()> {
    let mut reached = Reached::default();
    for file in files {
        count(&mut reached, open(file)?)?;
    }
    write!(output, "{reached}")
}
