//! Two jobs, two threads, one permit: the one works with it, the other waits for it.
//!
//!     ./build --lib PREFIX
//!     cargo run --offline --manifest-path bindings/rust/Cargo.toml --example two_jobs

use cqs::{NoneFree, Semaphore, TimeoutError};
use std::thread;
use std::time::Duration;

fn main() -> Result<(), Box<dyn std::error::Error>> {
    let semaphore = Semaphore::new(1);
    let permit = semaphore.acquire_blocking()?;
    assert_eq!(semaphore.try_acquire().unwrap_err(), NoneFree);
    let late = semaphore.acquire_timeout(Duration::from_millis(1));
    assert_eq!(late.unwrap_err(), TimeoutError::TimedOut);
    println!("job two waits a while, and gives up");

    thread::scope(|scope| {
        let waits = scope.spawn(|| {
            let permit = semaphore.acquire_blocking().expect("it isn't worn");
            println!("job two works");
            drop(permit);
        });
        println!("job one works");
        drop(permit);
        waits.join().expect("job two ends");
    });
    println!("{} permit is free", semaphore.available_permits());
    Ok(())
}
