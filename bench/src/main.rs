//! Speed of the built library beside the second engine's.

mod counting;
mod families;
mod files;
mod halts;
mod measure;
mod page;
mod plot;
mod searches;
mod texts;

use boundary::options::Options;
use families::Family;
use measure::{Engine, Libraries, Measured};
use page::{Counts, Row};
use std::path::PathBuf;
use std::process::ExitCode;

const HELP: &str = "\
bench: the speed of the built library beside the second engine's

  bench [LIBRARIES] [--rounds N] [--page FILE] [--plot FILE]
  bench --only PREFIX [LIBRARIES] [--rounds N]
  bench --once CALL --size N --engine library|second [LIBRARIES]

The first form measures every call, prints the table, puts it into the page
between its marks, writes the plot as SVG, and says which calls need more
instructions or time than the second engine or grow by more than 2.2 from half to
all of their size. It needs valgrind. The second form does so for the calls of
which the names begin so, and writes neither page nor plot. The third form makes
one call, so that an outside counter can watch it.

LIBRARIES are --library PATH, the library with the entries, and --counting PATH,
the one with the count of term fields alone, which only the calls count-.. need.
CALL is one of
";

const VALUED: [&str; 9] =
    ["--library", "--counting", "--rounds", "--page", "--plot", "--only", "--once", "--size", "--engine"];

fn main() -> ExitCode {
    let arguments: Vec<String> = std::env::args().skip(1).collect();
    let performed = Options::of(&arguments, &VALUED, &["--help"]).and_then(|options| perform(&options));
    match performed {
        Ok(()) => ExitCode::SUCCESS,
        Err(message) => {
            eprintln!("bench: {message}");
            ExitCode::from(2)
        }
    }
}

fn perform(options: &Options) -> Result<(), String> {
    if options.has("--help") {
        let keys: Vec<String> = families::all().into_iter().map(|family| family.key).collect();
        println!("{HELP}{}.", keys.join(", "));
        return Ok(());
    }
    let path = |name, otherwise| PathBuf::from(options.text(name).unwrap_or(otherwise));
    let libraries = Libraries {
        hitac: path("--library", "target/library/libhitac.so"),
        counting: path("--counting", "target/bench/libcounting.so"),
    };
    match options.text("--once") {
        Some(key) => call_once(options, &libraries, key),
        None => measure_all(options, &libraries),
    }
}

fn call_once(options: &Options, libraries: &Libraries, key: &str) -> Result<(), String> {
    let family =
        families::all().into_iter().find(|family| family.key == key).ok_or(format!("no call is named {key}"))?;
    let size = options.number("--size", family.most)?;
    let name = options.text("--engine").unwrap_or("library");
    let engine = Engine::of_name(name).ok_or(format!("no engine is named {name}"))?;
    let given = Measured::new(libraries, &family, size)?.call(engine);
    println!("{key} {size} {name}: {given:?}");
    Ok(())
}

fn measure_all(options: &Options, libraries: &Libraries) -> Result<(), String> {
    let rounds = options.number("--rounds", 21)?;
    let only = options.text("--only");
    let mut families = families::all();
    families.retain(|family| family.key.starts_with(only.unwrap_or("")));
    let mut rows = Vec::new();
    for family in &families {
        eprintln!("bench: {}", family.key);
        let times = measure::times(libraries, family, rounds)?;
        rows.push(Row { family, counts: counts_of(libraries, family)?, times });
    }
    let table = page::table(&rows);
    print!("{table}");
    for line in page::over(&rows) {
        println!("bench: {line}");
    }
    if only.is_some() {
        return Ok(());
    }
    if let Some(page) = options.text("--page") {
        let text = std::fs::read_to_string(page).map_err(|error| format!("cannot read {page}: {error}"))?;
        write(page, &page::with_measured_part(&text, &table)?)?;
    }
    if let Some(file) = options.text("--plot") {
        write(file, &plot::plot(&rows))?;
    }
    Ok(())
}

fn counts_of(libraries: &Libraries, family: &Family) -> Result<Vec<Counts>, String> {
    let count = |size, engine| measure::instructions(libraries, family, size, engine);
    let of_size =
        |size| Ok(Counts { size, ours: count(size, Engine::Library)?, seconds: count(size, Engine::Second)? });
    family.sizes().into_iter().map(of_size).collect()
}

fn write(path: &str, text: &str) -> Result<(), String> {
    std::fs::write(path, text).map_err(|error| format!("cannot write {path}: {error}"))
}
