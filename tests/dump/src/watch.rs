//! Stops a program that takes too long.

use std::process::{Child, ExitStatus};
use std::sync::atomic::{AtomicUsize, Ordering};
use std::sync::{Arc, Mutex};
use std::thread;
use std::time::{Duration, Instant};

const MOST_STOPPED: usize = 4;

struct Watched {
    deadline: Instant,
    child: Arc<Mutex<Child>>,
}

/// The programs that run, when each has to be done, and how many had to be stopped.
#[derive(Default)]
pub struct Watch {
    running: Mutex<Vec<Watched>>,
    stopped: AtomicUsize,
}

impl Watch {
    /// A watch with a thread that looks at it now and then.
    pub fn start() -> Arc<Watch> {
        let watch = Arc::new(Watch::default());
        let looked_at = Arc::clone(&watch);
        thread::spawn(move || loop {
            thread::sleep(Duration::from_millis(200));
            looked_at.stop_late();
        });
        watch
    }

    fn stop_late(&self) {
        let now = Instant::now();
        self.running.lock().unwrap().retain(|watched| {
            let late = watched.deadline < now;
            if late {
                self.stopped.fetch_add(1, Ordering::Relaxed);
                // It may have ended since.
                let _ = watched.child.lock().unwrap().kill();
            }
            !late
        });
    }

    /// So many were stopped that trying on would take for ever.
    pub fn gave_up(&self) -> bool {
        self.stopped.load(Ordering::Relaxed) >= MOST_STOPPED
    }

    pub fn add(&self, child: Child, limit: Duration) -> Arc<Mutex<Child>> {
        let child = Arc::new(Mutex::new(child));
        self.running.lock().unwrap().push(Watched { deadline: Instant::now() + limit, child: Arc::clone(&child) });
        child
    }

    /// Waits for its end; the lock is not held meanwhile, so that it can still be stopped.
    pub fn end(&self, child: &Arc<Mutex<Child>>) -> ExitStatus {
        let mut tries = 0;
        let status = loop {
            let ended = child.lock().unwrap().try_wait();
            if let Some(status) = ended.expect("a program that was started has an end") {
                break status;
            }
            pause(&mut tries);
        };
        let mut running = self.running.lock().unwrap();
        running.retain(|watched| !Arc::ptr_eq(&watched.child, child));
        status
    }
}

/// Lets others go first; after many tries, for longer.
pub fn pause(tries: &mut usize) {
    *tries += 1;
    if *tries < 200 {
        thread::yield_now();
    } else {
        thread::sleep(Duration::from_micros(100));
    }
}
