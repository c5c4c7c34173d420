//! What the measurement is made on: the machine and its load, the second engine's compiler, and busrun's kit.

use std::process::Command;
use std::{fs, thread};

/// One line for each.
pub fn lines(load: &Load) -> Vec<String> {
    vec![
        format!(
            "machine: {}, {} cores, {}",
            processor(),
            load.cores,
            said("uname", &["-m"])
        ),
        load.line(),
        format!("the second engine is built with {}", said("rustc", &["--version"])),
        format!("busrun is built with {}", said("rt", &["version"])),
    ]
}

const UNKNOWN: &str = "not known";

/// What the machine has to do as the measurement begins.
pub struct Load {
    /// How many programs wanted a core in the minute before.
    programs: Option<f64>,
    cores: usize,
}

impl Load {
    pub fn now() -> Load {
        Load {
            programs: programs(),
            cores: cores(),
        }
    }

    /// Whether times are to be trusted: not where the load is above the number of cores, as two programs then do not
    /// get the same share.
    pub fn trusted(&self) -> bool {
        self.programs.is_none_or(|programs| programs <= self.cores as f64)
    }

    fn line(&self) -> String {
        let load = self.programs.map_or(UNKNOWN.to_string(), |load| load.to_string());
        let warning = if self.trusted() {
            ""
        } else {
            ", above the number of cores: the times are not to be trusted"
        };
        format!("load as it begins: {load}{warning}")
    }
}

fn processor() -> String {
    let text = fs::read_to_string("/proc/cpuinfo").unwrap_or_default();
    model(&text).unwrap_or(UNKNOWN).to_string()
}

/// The first model name of /proc/cpuinfo.
fn model(text: &str) -> Option<&str> {
    let line = text.lines().find(|line| line.starts_with("model name"))?;
    line.split_once(": ").map(|(_, name)| name.trim())
}

fn programs() -> Option<f64> {
    let text = fs::read_to_string("/proc/loadavg").ok()?;
    text.split_whitespace().next()?.parse().ok()
}

fn cores() -> usize {
    thread::available_parallelism().map_or(1, |cores| cores.get())
}

/// The first line that a program says.
fn said(program: &str, words: &[&str]) -> String {
    let output = Command::new(program).args(words).output();
    let text = output.map_or(Vec::new(), |output| output.stdout);
    let text = String::from_utf8_lossy(&text);
    text.lines().next().unwrap_or(UNKNOWN).to_string()
}

#[cfg(test)]
mod tests {
    use super::*;

    #[test]
    fn the_model_is_read() {
        assert_eq!(
            model("processor\t: 0\nmodel name\t: Some Processor\nstepping\t: 4\n"),
            Some("Some Processor")
        );
        assert_eq!(model("processor\t: 0\n"), None);
    }

    fn of_two_cores(programs: Option<f64>) -> Load {
        Load { programs, cores: 2 }
    }

    #[test]
    fn times_are_trusted_up_to_a_program_a_core() {
        let trusted = [None, Some(0.5), Some(2.0), Some(2.01)].map(|programs| of_two_cores(programs).trusted());
        assert_eq!(trusted, [true, true, true, false]);
    }

    #[test]
    fn a_busy_machine_is_told() {
        assert_eq!(of_two_cores(Some(0.5)).line(), "load as it begins: 0.5");
        assert_eq!(of_two_cores(None).line(), "load as it begins: not known");
        assert_eq!(
            of_two_cores(Some(2.5)).line(),
            "load as it begins: 2.5, above the number of cores: the times are not to be trusted"
        );
    }

    #[test]
    fn a_missing_program_says_nothing() {
        assert_eq!(said("/nowhere/at/all", &[]), UNKNOWN);
        assert_eq!(said("echo", &["one"]), "one");
    }
}
