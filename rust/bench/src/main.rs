//! Measures the proved kernel, listing and audit against the Rust ones, in one run, and writes the figures as Markdown and
//! an SVG.

mod audits;
mod clock;
mod costs;
mod listings;
mod measure;
mod mixed;
mod moves;
mod plot;
mod programs;
mod proved;
mod stack;

/// The machine: the processor's name, its cores, and how busy it was.
fn machine(rounds: usize) {
    let file = |path| std::fs::read_to_string(path).unwrap_or_default();
    let processors = file("/proc/cpuinfo");
    let names = || {
        processors
            .lines()
            .filter(|line| line.starts_with("model name"))
    };
    let name = names().find_map(|line| line.split(": ").nth(1));
    let load = file("/proc/loadavg");
    println!(
        "Machine: {}, cores: {}. The load of the minute before: {}. Medians of {rounds} runs that take turns; of {} where the log has 200,000 records or more.\n",
        name.unwrap_or("a processor without a name"),
        names().count(),
        load.split(' ').next().unwrap_or("not known"),
        fewer(rounds)
    );
}

/// The rounds of a long log.
fn fewer(rounds: usize) -> usize {
    (rounds / 5).max(3)
}

fn main() {
    let mut words = std::env::args().skip(1);
    let usage = "usage: exos-bench PICTURE.svg PROVED-LISTING RUST-LISTING PROVED-AUDIT RUST-AUDITOR [ROUNDS]";
    let mut word = || words.next().expect(usage);
    let picture = word();
    let (listings, audits) = ([word(), word()], [word(), word()]);
    let rounds = words
        .next()
        .map_or(101, |word| word.parse().expect("a number of rounds"));
    machine(rounds);
    moves::print(rounds);
    mixed::print(200_000, fewer(rounds));
    println!("## (d) Cost by channels, segments, bytes moved and bytes of a module\n\n![costs](benchmark.svg)\n");
    let curves = costs::curves(rounds);
    curves.iter().for_each(plot::Curve::print);
    stack::print();
    listings::print(&listings, 200_000, fewer(rounds));
    audits::print(&audits, &listings, 1_000_000, fewer(rounds));
    std::fs::write(picture, plot::picture(&curves)).expect("a picture that can be written");
}
