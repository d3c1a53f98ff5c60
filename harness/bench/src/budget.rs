//! How well the odd counts settled tell the time of a Build: a base for its ports and slots, and a time for each.

use std::time::Instant;

use bench::{loads_of, Load};

use crate::{build_once, median, Size, SIZES};

/// A load, its odd counts and the nanoseconds of each of its builds.
struct Timed {
    load: Load,
    settled: f64,
    samples: Vec<f64>,
}

impl Timed {
    fn new(load: Load) -> Timed {
        let mut frame = vec![0; load.shape.frame_length()];
        Timed {
            settled: build_once(&load, &mut frame) as f64,
            load,
            samples: Vec::new(),
        }
    }

    fn sample(&mut self, frame: &mut [u16]) {
        let start = Instant::now();
        build_once(&self.load, frame);
        self.samples.push(start.elapsed().as_nanos() as f64);
    }

    fn time(&self) -> f64 {
        median(self.samples.clone())
    }
}

/// The loads of one size, and one of the same ports, slots and flows that has no cells.
struct Builds {
    name: String,
    idle: Timed,
    loads: Vec<Timed>,
    frame: Vec<u16>,
}

impl Builds {
    fn new(size: Size) -> Builds {
        let idle = loads_of(size.shape, 0, size.flows).swap_remove(0);
        let loads = loads_of(size.shape, size.cells, size.flows).into_iter();
        Builds {
            name: size.name(),
            idle: Timed::new(idle),
            loads: loads.map(Timed::new).collect(),
            frame: vec![0; size.shape.frame_length()],
        }
    }

    /// Samples every load once, after a build that is not timed, since another size came before.
    fn sample(&mut self) {
        build_once(&self.idle.load, &mut self.frame);
        for timed in self.loads.iter_mut().chain([&mut self.idle]) {
            timed.sample(&mut self.frame);
        }
    }

    fn mean_settled(&self) -> f64 {
        let settled = self.loads.iter().map(|timed| timed.settled);
        settled.sum::<f64>() / self.loads.len() as f64
    }

    /// The nanoseconds of each odd count settled, beyond the base.
    fn each(&self) -> f64 {
        let times = self.loads.iter().map(Timed::time).collect();
        (median(times) - self.idle.time()) / self.mean_settled()
    }

    /// The least and the greatest of the measured times beside base + each × settled.
    fn ratios(&self, each: f64) -> [f64; 2] {
        let base = self.idle.time();
        let ratio = |timed: &Timed| timed.time() / (base + each * timed.settled);
        let mut ratios: Vec<f64> = self.loads.iter().map(ratio).collect();
        ratios.sort_by(f64::total_cmp);
        [ratios[0], ratios[ratios.len() - 1]]
    }
}

/// Builds all loads of all sizes in turns and prints how far their times are from base + each × settled. The base is the time of
/// a load without cells, and each that of the loads of the first size.
pub fn print_budget(repetitions: usize) {
    let mut sizes = SIZES.map(Builds::new);
    for _ in 0..repetitions {
        for size in &mut sizes {
            size.sample();
        }
    }
    let each = sizes[0].each();
    let name = format!("base + {each:.2} ns x settled");
    println!(
        "{name:<34}{:>24}{:>24}{:>10}{:>10}",
        "base median us", "mean settled", "least", "greatest"
    );
    for size in &sizes {
        let (name, base) = (&size.name, size.idle.time() / 1_000.0);
        let settled = size.mean_settled();
        let [least, greatest] = size.ratios(each);
        println!("{name:<34}{base:>24.3}{settled:>24.0}{least:>10.3}{greatest:>10.3}");
    }
}
