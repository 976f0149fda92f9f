//! 64 threads ask for one cold key at once: `ROOKDRESSER_LIB=FOLDER cargo run --release --example stampede`.
use rookdresser::{Loading, Setup};
use std::sync::atomic::{AtomicU64, Ordering};
use std::sync::Barrier;
use std::time::Duration;

fn main() {
    let setup = Setup::of(1000).after_write(Duration::from_secs(60));
    let cache = Loading::<String, String, ()>::open(&setup).expect("the setup is within its ranges");
    let (gate, loads, same) = (Barrier::new(64), AtomicU64::new(0), AtomicU64::new(0));
    std::thread::scope(|threads| {
        for _ in 0..64 {
            threads.spawn(|| {
                gate.wait();
                let page = cache.get_with("a page", || {
                    loads.fetch_add(1, Ordering::SeqCst);
                    std::thread::sleep(Duration::from_millis(50));
                    "its text".into()
                });
                if page.is_ok_and(|page| *page == "its text") {
                    same.fetch_add(1, Ordering::SeqCst);
                }
            });
        }
    });
    println!("64 threads, {} loads, {} got the value", loads.into_inner(), same.into_inner());
}
