//! The workloads of `dl_bench` by the strong peer.

use peers::strong as peer;

include!("../workloads.rs");

fn main() -> ExitCode {
    run_words(run_of_both, "usage: strong loads|many|rounds|loader N B, hits|clears N, or threads|hot N C")
}
