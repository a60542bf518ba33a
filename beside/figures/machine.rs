//! The machine's kind, and the run's place in docs/FIGURES.md.

use std::fs;

const BEGIN: &str = "<!-- the run's lines begin -->\n";
const END: &str = "<!-- the run's lines end -->";

/// The rest of the first line of a file that starts with the word.
fn after(path: &str, word: &str) -> String {
    let text = fs::read_to_string(path).unwrap_or_default();
    let line = text.lines().find(|line| line.starts_with(word)).unwrap_or_default();
    line[line.find([':', '=']).map_or(line.len(), |i| i + 1)..].trim().trim_matches('"').to_string()
}

/// What beside/figures.sh says of the tools.
fn told(name: &str) -> String {
    std::env::var(name).unwrap_or_else(|_| "not told".into())
}

/// A line for each thing that the figures depend on.
pub fn lines() -> String {
    let cores = fs::read_to_string("/proc/cpuinfo").unwrap_or_default().lines().filter(|line| line.starts_with("processor")).count();
    // Others' work on the machine disturbs the longer runs, of which there are few: the page has to say how much there was.
    let load = fs::read_to_string("/proc/loadavg").unwrap_or_default();
    let cpuinfo = |word| after("/proc/cpuinfo", word);
    [
        format!("processor   {}, family {} model {}, {cores} cores, {} L3", cpuinfo("model name"), cpuinfo("cpu family"), cpuinfo("model\t"), cpuinfo("cache size")),
        format!("system      {}, {}", after("/etc/os-release", "PRETTY_NAME"), told("FIGURES_LIBC")),
        format!("the Rust    {}, {}", told("FIGURES_RUSTC"), told("FIGURES_FLAGS")),
        format!("ours        {}, rt lib", told("FIGURES_KIT")),
        format!("load        {} as the run began", load.split(' ').next().unwrap_or_default()),
    ]
    .map(|line| line + "\n")
    .concat()
}

/// Puts the run's lines between the two marks of the page; the rest of it stays.
pub fn record(path: &str, run: &str) {
    let page = fs::read_to_string(path).expect("the page is there");
    let (head, rest) = page.split_once(BEGIN).expect("the page says where the run's lines begin");
    let (_, tail) = rest.split_once(END).expect("the page says where the run's lines end");
    fs::write(path, format!("{head}{BEGIN}\n```\n{run}```\n\n{END}{tail}")).expect("the page can be written");
}
