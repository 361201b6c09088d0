//! Prints the sheet of a graph file, given by its path or on standard input, says which vertices are worth a rewrite, and plays a run of it
//! with every vertex at its WCET.

use std::io::Read;
use std::process::ExitCode;

/// The library, safe to call: a list is a slice, and a refusal is an error.
mod planner {
    use std::fmt;

    pub const LONGEST_FILE: usize = 9296;
    pub const MOST_VERTICES: usize = 128;
    pub const PARTS_PER_TICK: u64 = 720_720;

    /// include/planner.h says what each field means. The record is the caller's to keep; one that was changed is judged anew at each tick.
    #[repr(C)]
    #[derive(Clone, Copy)]
    pub struct Record {
        pub n: usize,
        pub instant: u64,
        pub left: [u32; 128],
        pub ran: [u64; 2],
        pub waiting: [u8; 128],
    }

    #[repr(C)]
    pub struct Graph {
        pub kinds: usize,
        pub n: usize,
        pub edges: usize,
        pub cores: [u8; 10],
        pub kind: [u8; 128],
        pub wcet: [u32; 128],
        pub edge: [u16; 1024],
    }

    /// OLD-B and NEW-B-1 in parts of a tick, and NEW-B-1 in whole ticks.
    #[repr(C)]
    pub struct Bounds {
        pub old_b: u64,
        pub new_b_1: u64,
        pub ticks: u64,
    }

    /// docs/REFUSALS.md says what the number means and what the place counts.
    #[repr(C)]
    #[derive(Clone, Copy)]
    pub struct Refusal {
        pub number: u32,
        pub place: u32,
    }

    impl fmt::Display for Refusal {
        fn fmt(&self, f: &mut fmt::Formatter) -> fmt::Result {
            write!(f, "refused {} at {}", self.number, self.place)
        }
    }

    /// Every answer but a tick's is a number and a place, and then values: laid out as the header's structs are.
    #[repr(C)]
    struct Answer<T> {
        refusal: Refusal,
        value: T,
    }

    impl<T> Answer<T> {
        fn told(self) -> Result<T, Refusal> {
            match self.refusal.number {
                0 => Ok(self.value),
                _ => Err(self.refusal),
            }
        }
    }

    const _: () = assert!(std::mem::size_of::<Answer<Graph>>() == 2736);
    const _: () = assert!(std::mem::size_of::<Answer<u64>>() == 16);
    const _: () = assert!(std::mem::size_of::<Answer<Bounds>>() == 32);
    const _: () = assert!(std::mem::size_of::<Answer<Record>>() == 680);
    const _: () = assert!(std::mem::size_of::<Answer<u32>>() == 12);

    #[link(name = "planner", kind = "static")]
    extern "C" {
        fn planner_read(file: *const u8, file_length: usize) -> Answer<Graph>;
        fn planner_bounds(file: *const u8, file_length: usize) -> Answer<Bounds>;
        fn planner_path(file: *const u8, file_length: usize, out: *mut u8, out_length: usize) -> Answer<u64>;
        fn planner_start(file: *const u8, file_length: usize, times: *const u32, times_length: usize)
            -> Answer<Record>;
        fn planner_tick_in_place(run: *mut Record, file: *const u8, file_length: usize) -> Answer<u32>;
        fn planner_run(
            file: *const u8,
            file_length: usize,
            times: *const u32,
            times_length: usize,
            finishes: *mut u32,
            finishes_length: usize,
        ) -> Answer<u64>;
        fn planner_second(file: *const u8, file_length: usize) -> Answer<u64>;
        fn planner_gains(file: *const u8, file_length: usize, gains: *mut u64, gains_length: usize) -> Answer<u64>;
        fn planner_gains_altered(
            file: *const u8,
            file_length: usize,
            vertex: u32,
            wcet: u32,
            gains: *mut u64,
            gains_length: usize,
        ) -> Answer<u64>;
    }

    // Safety, of each call below: a slice's pointer is not null, is aligned, and is good for its length, and a `&mut` overlaps nothing else.
    // The library asks for no more: any bytes, any times and any record get an answer.

    pub fn read(file: &[u8]) -> Result<Graph, Refusal> {
        unsafe { planner_read(file.as_ptr(), file.len()) }.told()
    }

    pub fn bounds(file: &[u8]) -> Result<Bounds, Refusal> {
        unsafe { planner_bounds(file.as_ptr(), file.len()) }.told()
    }

    /// NEW-B-2 in parts of a tick, or none where the graph has too many complete paths for it.
    pub fn second(file: &[u8]) -> Result<Option<u64>, Refusal> {
        match unsafe { planner_second(file.as_ptr(), file.len()) }.told() {
            Err(Refusal { number: 17, .. }) => Ok(None),
            told => told.map(Some),
        }
    }

    /// How many vertices of `out` the path takes.
    pub fn path(file: &[u8], out: &mut [u8]) -> Result<usize, Refusal> {
        let count = unsafe { planner_path(file.as_ptr(), file.len(), out.as_mut_ptr(), out.len()) }.told()?;
        Ok(count as usize)
    }

    pub fn start(file: &[u8], times: &[u32]) -> Result<Record, Refusal> {
        unsafe { planner_start(file.as_ptr(), file.len(), times.as_ptr(), times.len()) }.told()
    }

    /// Whether the run moved; if not, it is done.
    pub fn tick(run: &mut Record, file: &[u8]) -> Result<bool, Refusal> {
        let moved = unsafe { planner_tick_in_place(run, file.as_ptr(), file.len()) }.told()?;
        Ok(moved == 1)
    }

    /// The finish; each vertex's finish instant goes into `finishes`.
    pub fn run(file: &[u8], times: &[u32], finishes: &mut [u32]) -> Result<u64, Refusal> {
        let finish = unsafe {
            planner_run(file.as_ptr(), file.len(), times.as_ptr(), times.len(), finishes.as_mut_ptr(), finishes.len())
        };
        finish.told()
    }

    /// How many vertices there are; what a rewrite of each would gain, in parts of a tick, goes into `gains`.
    pub fn gains(file: &[u8], gains: &mut [u64]) -> Result<usize, Refusal> {
        let count = unsafe { planner_gains(file.as_ptr(), file.len(), gains.as_mut_ptr(), gains.len()) }.told()?;
        Ok(count as usize)
    }

    /// The same of the graph in which one vertex has another WCET.
    pub fn gains_altered(file: &[u8], vertex: u32, wcet: u32, gains: &mut [u64]) -> Result<usize, Refusal> {
        let count =
            unsafe { planner_gains_altered(file.as_ptr(), file.len(), vertex, wcet, gains.as_mut_ptr(), gains.len()) };
        Ok(count.told()? as usize)
    }
}

fn words<T: ToString>(values: &[T]) -> String {
    values.iter().map(T::to_string).collect::<Vec<_>>().join(" ")
}

/// The vertices with the largest gain first. The sort leaves equals where they stand: the lower number first.
fn ranked(gains: &[u64]) -> Vec<usize> {
    let mut vertices: Vec<usize> = (0..gains.len()).collect();
    vertices.sort_by_key(|&v| std::cmp::Reverse(gains[v]));
    vertices
}

/// By how much the bound would fall if a vertex took no time, for the three that come first, in whole ticks.
fn print_best(what: &str, gains: &[u64]) {
    let best = ranked(gains).into_iter().take(3);
    let told = best.map(|v| format!("{v} by {}", gains[v] / planner::PARTS_PER_TICK));
    println!("{what} {}", told.collect::<Vec<_>>().join(", "));
}

fn sheet(file: &[u8]) -> Result<(), planner::Refusal> {
    let graph = planner::read(file)?;
    let bounds = planner::bounds(file)?;
    let mut path = [0; planner::MOST_VERTICES];
    let count = planner::path(file, &mut path)?;
    println!("graph {} {} {}", graph.kinds, graph.n, graph.edges);
    println!("old {}", bounds.old_b);
    println!("new {}", bounds.new_b_1);
    println!("second {}", planner::second(file)?.map_or("none".to_string(), |parts| parts.to_string()));
    println!("ticks {}", bounds.ticks);
    println!("path {}", words(&path[..count]));
    let mut gains = vec![0; graph.n];
    planner::gains(file, &mut gains)?;
    println!("gains {}", words(&ranked(&gains)));

    // what is worth a rewrite, and what would be worth it next, once the first of them takes half as long
    print_best("rewrite", &gains);
    let first = ranked(&gains)[0];
    planner::gains_altered(file, first as u32, graph.wcet[first] / 2, &mut gains)?;
    print_best("rewrite next", &gains);

    let times = &graph.wcet[..graph.n];
    let mut run = planner::start(file, times)?;
    while planner::tick(&mut run, file)? {}
    println!("done at {}", run.instant);

    let mut finishes = vec![0; graph.n];
    let finish = planner::run(file, times, &mut finishes)?;
    println!("finishes {}", words(&finishes));
    println!("finish {finish}");
    Ok(())
}

/// One byte above the longest file is enough: a longer one is still seen to be too long.
fn file() -> std::io::Result<Vec<u8>> {
    let mut bytes = Vec::new();
    let most = planner::LONGEST_FILE as u64 + 1;
    match std::env::args().nth(1) {
        Some(path) => std::fs::File::open(path)?.take(most).read_to_end(&mut bytes)?,
        None => std::io::stdin().take(most).read_to_end(&mut bytes)?,
    };
    Ok(bytes)
}

fn main() -> ExitCode {
    match file() {
        Err(error) => {
            eprintln!("{error}");
            return ExitCode::FAILURE;
        }
        Ok(bytes) => {
            if let Err(refusal) = sheet(&bytes) {
                println!("{refusal}");
            }
        }
    }
    ExitCode::SUCCESS
}
