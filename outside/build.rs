//! Says where the archives that tools/build writes are found: target/staticlib of the repository,
//! or the folder named by STATICLIB_DIR. Says also whether libmeasured.a installs and tries: archives from
//! before Wishes 2 and 6 do not, and are still to be timed beside later ones.

/// The calls that archives of before lack, and the settings that say that they are there.
const LATER_CALLS: [&str; 2] = ["measured_install", "measured_trial"];

fn main() {
    println!("cargo:rerun-if-env-changed=STATICLIB_DIR");
    println!("cargo:rerun-if-changed=build.rs");
    let folder = std::env::var("STATICLIB_DIR")
        .unwrap_or_else(|_| format!("{}/../target/staticlib", env!("CARGO_MANIFEST_DIR")));
    println!("cargo:rustc-link-search=native={folder}");
    // Nothing where it is not there.
    let archive = std::fs::read(format!("{folder}/libmeasured.a")).unwrap_or_default();
    for call in LATER_CALLS {
        println!("cargo:rustc-check-cfg=cfg({call})");
        if has_word(&archive, call.as_bytes()) {
            println!("cargo:rustc-cfg={call}");
        }
    }
}

/// Whether bytes have others somewhere.
fn has_word(bytes: &[u8], word: &[u8]) -> bool {
    bytes.windows(word.len()).any(|part| part == word)
}
