//! Stack, in bytes on a painted one.

use outside::deep::{families, merging_stacks, trial_stacks, Stack};
use outside::entry::HEADER;
use outside::generate::RISING;
use outside::page::{count, Table};
use outside::product::Product;
use outside::stack::Painted;

use crate::findings::Page;
use crate::merging::answer_word;

pub fn stacks(page: &mut Page, product: &Product) {
    page.say("## Stack\n");
    page.say(
        "Bytes from the lowest one that a call writes up to the end of its thread's stack, the \
         thread's own start among them. The families are those of the test (outside/src/deep.rs).\n",
    );
    if let Some(compare) = product.compare {
        let mut stack = Painted::new();
        let mut table = Table::new(&["comparisons", "pairs of files", "at most"]);
        for family in families() {
            let used = family.pairs.iter().map(|(first, second)| {
                stack.used(&mut || {
                    compare(first, second, &mut [0; HEADER]);
                })
            });
            let most = used.max().expect("some pairs");
            let pairs = family.pairs.len();
            table.row(vec![family.name.to_string(), pairs.to_string(), count(most as u64)]);
        }
        page.say(&table.text());
    }
    if let Some(merge) = product.merge {
        page.say(&calls("filings and a merging", merging_stacks(&merge)));
    }
    if let Some(install) = product.install {
        let install = |input: &[u8], file: &mut [u8]| install(input, &RISING, file);
        page.say(&calls("filings and an install", merging_stacks(&install)));
    }
    if let Some(trial) = product.trial {
        page.say(&calls("filings and a trial of the last list", trial_stacks(&trial)));
    }
}

/// The table of a call that files and merges, installs or tries.
fn calls(title: &str, stacks: Vec<Stack>) -> String {
    let mut table = Table::new(&[title, "answer", "bytes"]);
    for (name, answer, used) in stacks {
        table.row(vec![name, answer_word(answer), count(used as u64)]);
    }
    table.text()
}
