//! The machine that the figures are of.

use std::fs::read_to_string;

/// The processor, how many there are, and the kernel, in a line.
pub fn line() -> String {
    let processors = read_to_string("/proc/cpuinfo").unwrap_or_default();
    let version = read_to_string("/proc/version").unwrap_or_default();
    let count = std::thread::available_parallelism().map_or(1, |n| n.get());
    let field = |name| field(&processors, name);
    let megahertz = field("cpu MHz").split('.').next().unwrap_or_default();
    let model = format!("{} (family {}, model {}, {megahertz} MHz)", field("model name"), field("cpu family"), field("model"));
    format!("Machine: {model}, {count} processors, Linux {}", version.split(' ').nth(2).unwrap_or("unknown"))
}

/// The first value of a name in /proc/cpuinfo.
fn field<'a>(processors: &'a str, name: &str) -> &'a str {
    let values = processors.lines().filter_map(|line| line.split_once(':')).filter(|(field, _)| field.trim() == name);
    values.map(|(_, value)| value.trim()).next().unwrap_or("unknown")
}
