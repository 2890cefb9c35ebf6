//! One checker on every family, each call given up after some seconds.
//!
//! A call cannot be stopped from outside, so another process makes them; it is ended at the limit, and a
//! new one goes on after the family that took too long.

use differential::cases::{Case, Outcome};
use differential::checker::Checker;
use differential::families::{Family, Memory};
use std::io::{self, BufRead, BufReader, Write};
use std::process::{Child, Command, Stdio};
use std::sync::mpsc::{self, Receiver, RecvTimeoutError};
use std::thread;
use std::time::{Duration, Instant};

/// A call that takes less is made three times.
const SHORT: Duration = Duration::from_millis(200);
/// What a call may take at the limits.
const GOAL: f64 = 1_000.0;

/// Makes the calls: for each family two lines, one before the call and one after it.
pub fn make(checker: &dyn Checker, families: &[Family]) -> io::Result<()> {
    let mut out = io::stdout();
    let mut memory = Memory::default();
    for family in families {
        writeln!(out, "{:40} {:>8}", family.label, family.bytes())?;
        out.flush()?;
        let (mut reply, mut best) = timed(checker, family, &mut memory);
        for _ in 0..2 {
            if best < SHORT {
                let (again, time) = timed(checker, family, &mut memory);
                (reply, best) = (again, best.min(time));
            }
        }
        writeln!(out, "{reply:>26} {:>10.3}", best.as_secs_f64() * 1e3)?;
        out.flush()?;
    }
    Ok(())
}

fn timed(checker: &dyn Checker, family: &Family, memory: &mut Memory) -> (String, Duration) {
    let start = Instant::now();
    let reply = family.call(checker, memory);
    let time = start.elapsed();
    let outcome = Outcome {
        reply,
        cards: Vec::new(),
        out: Vec::new(),
    };
    let case = Case::new(&family.file, family.call.clone());
    (case.reply(&outcome), time)
}

/// A process that makes the calls, and its lines as they come.
struct Calls {
    process: Child,
    lines: Receiver<String>,
}

impl Calls {
    /// The same options again, and after how many families to begin.
    fn begin(after: usize) -> io::Result<Calls> {
        let mut command = Command::new(std::env::current_exe()?);
        command.args(std::env::args().skip(1));
        command.arg("--after").arg(after.to_string());
        let mut process = command.stdout(Stdio::piped()).spawn()?;
        let output = process.stdout.take().expect("it is piped");
        let (sender, lines) = mpsc::channel();
        thread::spawn(move || {
            let lines = BufReader::new(output).lines().map_while(Result::ok);
            lines.for_each(|line| drop(sender.send(line)));
        });
        Ok(Calls { process, lines })
    }

    fn end(mut self) -> io::Result<()> {
        self.process.kill()?;
        self.process.wait().map(drop)
    }
}

/// Prints the table. Whether every call came to its end, under a second.
pub fn table(limit: Duration) -> io::Result<bool> {
    println!("{:40} {:>8} {:>26} {:>10}", "", "bytes", "reply", "ms");
    let (mut count, mut slow, mut given_up) = (0, 0, 0);
    let mut calls = Calls::begin(0)?;
    // No line more: the process has made all its calls, or has come to a bad end.
    while let Ok(family) = calls.lines.recv() {
        print!("{family}");
        io::stdout().flush()?;
        count += 1;
        match calls.lines.recv_timeout(limit) {
            Ok(line) => {
                let time = line.split_whitespace().last().map(str::parse::<f64>);
                slow += u32::from(!matches!(time, Some(Ok(time)) if time <= GOAL));
                println!(" {line}");
            }
            Err(RecvTimeoutError::Timeout) => {
                let given = format!("over {}", limit.as_millis());
                println!(" {:>26} {given:>10}", "given up");
                given_up += 1;
                calls.end()?;
                calls = Calls::begin(count)?;
            }
            Err(RecvTimeoutError::Disconnected) => break,
        }
    }
    let ended = calls.process.wait()?.success();
    println!("{count} families, {slow} over a second, {given_up} given up");
    if !ended {
        println!("the process that makes the calls came to a bad end");
    }
    Ok(ended && slow == 0 && given_up == 0)
}
