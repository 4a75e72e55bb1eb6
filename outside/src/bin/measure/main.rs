//! Measures search, comparison, lookup, merging, installing and trying, and their stack, and writes a Markdown
//! page: measure [PATH [CHECKING]]. The product's columns are filled as far as its archives are linked (see
//! product.rs). CHECKING is a file with what is to be said of the proofs, put at the page's end.
//! `measure rows` times the product's rows as they are asked for (see rows.rs).

mod comparison;
mod findings;
mod growth;
mod installing;
mod lookup;
mod merging;
mod rows;
mod search;
mod stack;
mod times;
mod trying;

use findings::Page;
use growth::Growth;
use outside::product::product;

fn machine() -> String {
    let cpu = std::fs::read_to_string("/proc/cpuinfo").unwrap_or_default();
    let model = cpu
        .lines()
        .find_map(|line| line.strip_prefix("model name")?.split(": ").nth(1))
        .unwrap_or("an unknown processor");
    let compiler = std::process::Command::new("rustc").arg("--version").output();
    let compiler = compiler.map_or_else(
        |_| "an unknown compiler".to_string(),
        |output| String::from_utf8_lossy(&output.stdout).trim().to_string(),
    );
    let cores = std::thread::available_parallelism().map_or(1, |n| n.get());
    format!("{model}, {}, {cores} cores; {compiler}, opt-level 3", std::env::consts::ARCH)
}

fn introduction() -> String {
    format!(
        "# Measurements\n\n\
         Written anew by `make measure`. Machine: {}. Times are processor time of one thread, the \
         least of several batches, the versions of a job in turn. Inputs come from the tests' \
         generator (outside/src/generate.rs) with fixed seeds. Files are of version 2 where a row names \
         no other; what is filed is of both versions.\n\n\
         - **product**: the proved code, called over its C interface.\n\
         - **Rust, bytes**: the same algorithm in Rust over the same bytes.\n\
         - **Rust, decoded**: the fastest version that we know, over decoded structs with a list \
         of the records that meet each box; decoding is counted.\n\
         - **cells**: another method, coordinate compression with bit sets and remembered states; \
         it gives up after 100,000 states of a field.\n\
         - **ratio**: the product's time divided by that of the column before. Above 1 the product \
         is slower.\n",
        machine()
    )
}

fn main() {
    let product = product();
    let mut words = std::env::args().skip(1);
    let (path, checking) = (words.next(), words.next());
    if path.as_deref() == Some("rows") {
        return rows::answer(&product);
    }
    let mut page = Page::default();
    search::searches(&mut page, &product);
    search::realistic(&mut page, &product);
    search::wants(&mut page, &product);
    comparison::comparisons(&mut page, &product);
    lookup::lookups(&mut page, &product);
    merging::mergings(&mut page, &product);
    installing::installs(&mut page, &product);
    trying::trials(&mut page, &product);
    stack::stacks(&mut page, &product);
    let mut growth = Growth::new();
    search::growth(&mut growth, &product);
    comparison::growth(&mut growth, &product);
    lookup::growth(&mut growth, &product);
    merging::growth(&mut growth, &product);

    let checking = checking.map_or(String::new(), |path| {
        std::fs::read_to_string(&path).unwrap_or_else(|e| panic!("{path}: {e}"))
    });
    let text = [
        introduction(),
        format!(
            "## At a glance\n\nThe product's time divided by that of each version.\n\n{}",
            page.ratios_at_a_glance()
        ),
        format!("## Targets\n\n{}", page.targets()),
        page.text,
        growth.text(),
        checking,
    ]
    .join("\n");
    match path {
        Some(path) => std::fs::write(&path, text).unwrap_or_else(|e| panic!("{path}: {e}")),
        None => print!("{text}"),
    }
}
