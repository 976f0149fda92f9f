//! What the tests share.
use std::sync::mpsc;
use std::time::Duration;

/// Runs the work in a thread of its own and returns what it returned. A minute is far more than it needs: a thread that is still
/// at work then hangs.
#[allow(dead_code)] // A test of much work takes `within` alone.
pub fn within_a_minute<T: Send + 'static>(work: impl FnOnce() -> T + Send + 'static) -> T {
    within(Duration::from_secs(60), work)
}

/// As `within_a_minute`, for work that has so much time.
pub fn within<T: Send + 'static>(time: Duration, work: impl FnOnce() -> T + Send + 'static) -> T {
    let (done, told) = mpsc::channel();
    let thread = std::thread::spawn(move || done.send(work()));
    match told.recv_timeout(time) {
        Ok(result) => result,
        Err(mpsc::RecvTimeoutError::Timeout) => panic!("it hangs"),
        Err(mpsc::RecvTimeoutError::Disconnected) => match thread.join() {
            Err(panic) => std::panic::resume_unwind(panic),
            Ok(_) => unreachable!("the result was sent"),
        },
    }
}
