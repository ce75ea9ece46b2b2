//! Says whether the original's `Grevlex` is document 01's order.

use std::process::ExitCode;

use harness::grevlex::compare_orders;

fn main() -> ExitCode {
    let report = compare_orders();
    match report.difference {
        None => {
            println!("Grevlex is document 01's order on {} pairs", report.pairs);
            ExitCode::SUCCESS
        }
        Some((a, b, orders)) => {
            println!(
                "Grevlex, Order and the model on {:?} and {:?}: {orders:?}",
                a.0, b.0
            );
            ExitCode::FAILURE
        }
    }
}
