//! A machine that never comes back from a step cannot be stopped from within: a second
//! thread looks at how long the case has been running, shows it and ends the whole program.

use std::sync::{Arc, Mutex};
use std::time::{Duration, Instant};

use crate::case::Case;
use crate::report::shown_case;

#[derive(Clone)]
pub struct Watch {
    running: Arc<Mutex<Option<(Instant, Case)>>>,
}

impl Watch {
    pub fn new(patience: Duration) -> Watch {
        let watch = Watch { running: Arc::new(Mutex::new(None)) };
        let running = Arc::clone(&watch.running);
        std::thread::spawn(move || loop {
            std::thread::sleep(Duration::from_millis(500));
            let running = running.lock().expect("nobody panics with the lock");
            if let Some((since, case)) = &*running {
                if since.elapsed() > patience {
                    println!(
                        "DIFFERENCE: the case takes more than {} s\n{}",
                        patience.as_secs(),
                        shown_case(case)
                    );
                    std::process::exit(1);
                }
            }
        });
        watch
    }

    /// Runs what concerns a case under the eyes of the watch.
    pub fn over<T>(&self, case: &Case, work: impl FnOnce() -> T) -> T {
        self.set(Some((Instant::now(), case.clone())));
        let result = work();
        self.set(None);
        result
    }

    fn set(&self, state: Option<(Instant, Case)>) {
        *self.running.lock().expect("nobody panics with the lock") = state;
    }
}
