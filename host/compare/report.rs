//! One line for each check; the runner counts them.

pub struct Report {
    failed: bool,
    /// End the run at the first failure.
    stop: bool,
}

impl Report {
    pub fn new(stop: bool) -> Report {
        Report { failed: false, stop }
    }

    pub fn check(&mut self, name: &str, result: Result<String, String>) {
        match result {
            Ok(told) => println!("ok: {}{}{}", name, if told.is_empty() { "" } else { ": " }, told),
            Err(why) => {
                self.failed = true;
                println!("FAILED: {}: {}", name, why);
                if self.stop {
                    std::process::exit(1);
                }
            }
        }
    }

    pub fn holds(&mut self, name: &str, right: bool) {
        self.check(name, if right { Ok(String::new()) } else { Err("does not hold".into()) });
    }

    pub fn failed(&self) -> bool {
        self.failed
    }
}
