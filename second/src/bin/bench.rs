//! Time per call of the model and, where it is linked, of the proved
//! implementation, on the same traces and through the same interface.

use std::hint::black_box;
use std::time::Instant;

use second::check::machine::{Machine, Model, Reply};
use second::check::random::Random;
use second::check::world::World;
use second::IMAGE;

/// Many short rounds, of which the best counts.
const ROUNDS: usize = 150;
const CALLS: usize = 20_000;

const SUPERVISOR: u32 = 0x80;
const WRITE: u32 = 0x40;

const SCR: u32 = 0x004;
const SAPR: u32 = 0x200;
const BWP0: u32 = 0x400;

/// Bits of area pointers and descriptors.
const CI: u32 = 1 << 6;
const M: u32 = 1 << 4;
const U: u32 = 1 << 3;
const V: u32 = 1;

/// Address, kind, enables, word.
type Trace = Vec<[u32; 4]>;

/// A supervisor with 256 KiB of RAM, unmapped, local and cached.
fn board() -> World {
    let mut world = World::new(65_536, 4096);
    for (index, word) in world.ram.iter_mut().enumerate() {
        *word = index as u32;
    }
    Model.reset(&mut world, 4096, 1);
    set(&mut world, SAPR, 0);
    world
}

fn set(world: &mut World, offset: u32, value: u32) {
    let lend = world.lend;
    Model.write_register(world, lend, [offset, value], &mut [0; 24]);
}

fn run(machine: &impl Machine, world: &mut World, trace: &Trace) {
    let lend = world.lend;
    let mut reply: Reply = [0; 24];
    for &access in trace {
        let refusal = machine.access(world, lend, access, &mut reply);
        black_box((refusal, &reply));
    }
}

/// Reads of 64 lines in turn, from a logical page on.
fn reads(base: u32) -> Trace {
    (0..CALLS as u32).map(|n| [base + ((n * 20) & 0x3FC), SUPERVISOR, 15, 0]).collect()
}

/// Maps pages one to one in the last segment but one, descriptors used and
/// modified: tables at 10000 and 11000, frames from 0.
fn map(world: &mut World) {
    world.ram[0x10000 / 4 + 0x3FE] = 0x11000 | V;
    for page in 0..1024 {
        world.ram[0x11000 / 4 + page] = (page as u32 % 16) << 12 | U | M | V;
    }
    set(world, SAPR, 0x10000 | V);
}

const MAPPED: u32 = 0x3FE << 22;

/// Times one round of a benchmark on a world, in nanoseconds per call.
trait Round {
    fn round<T: Machine>(&self, machine: &T, world: &mut World) -> f64;
}

/// All accesses of a trace.
struct Accesses<'a>(&'a Trace);

impl Round for Accesses<'_> {
    fn round<T: Machine>(&self, machine: &T, world: &mut World) -> f64 {
        let clock = Instant::now();
        run(machine, world, self.0);
        clock.elapsed().as_nanos() as f64 / self.0.len() as f64
    }
}

/// A longer call, for which the unit is set up anew each time.
struct Once<'a, F: Fn(&dyn Machine, &mut World)>(&'a World, F);

impl<F: Fn(&dyn Machine, &mut World)> Round for Once<'_, F> {
    fn round<T: Machine>(&self, machine: &T, world: &mut World) -> f64 {
        const TIMES: u32 = 20;
        let mut total = 0;
        for _ in 0..TIMES {
            world.unit.clone_from(&self.0.unit);
            let clock = Instant::now();
            (self.1)(machine, world);
            total += clock.elapsed().as_nanos();
        }
        total as f64 / f64::from(TIMES)
    }
}

/// The best rounds of both implementations, taken in turn, as a line.
fn line(name: &str, start: &World, round: impl Round) {
    let mut second = (start.clone(), f64::INFINITY);
    #[cfg(have_proved)]
    let mut proved = (start.clone(), f64::INFINITY);
    for _ in 0..ROUNDS {
        second.1 = second.1.min(round.round(&Model, &mut second.0));
        #[cfg(have_proved)]
        {
            proved.1 = proved.1.min(round.round(&second::check::proved::Proved, &mut proved.0));
        }
    }
    let second = second.1;
    #[cfg(have_proved)]
    println!("{name:<28} {:>10.1} {second:>10.1} {:>8.2}", proved.1, proved.1 / second);
    #[cfg(not(have_proved))]
    println!("{name:<28} {:>10} {second:>10.1} {:>8}", "-", "-");
}

fn trace_line(name: &str, world: &World, trace: &Trace) {
    line(name, world, Accesses(trace));
}

fn call_line(name: &str, world: &World, call: impl Fn(&dyn Machine, &mut World)) {
    line(name, world, Once(world, call));
}

fn flush(machine: &dyn Machine, world: &mut World) {
    let lend = world.lend;
    let mut reply: Reply = [0; 24];
    black_box(machine.write_register(world, lend, [SCR, 0x1B], &mut reply));
    black_box(&reply);
}

fn main() {
    println!("{:<28} {:>10} {:>10} {:>8}", "ns per call", "proved", "second", "ratio");

    // Read hits by each kind of translation.
    let mut world = board();
    map(&mut world);
    set(&mut world, BWP0, 0x0008_0000 | 0x21);
    trace_line("read hit, first port", &world, &reads(0x0008_0000));
    set(&mut world, BWP0, 0);
    set(&mut world, BWP0 + 28, 0x0008_0000 | 0x21);
    trace_line("read hit, last port", &world, &reads(0x0008_0000));

    let mut world = board();
    map(&mut world);
    let pages: Trace = (0..56).map(|page| [MAPPED + (page << 12), SUPERVISOR, 15, 0]).collect();
    run(&Model, &mut world, &pages);
    trace_line("read hit, first entry", &world, &reads(MAPPED));
    trace_line("read hit, last entry", &world, &reads(MAPPED + (55 << 12)));
    trace_line("read hit, unmapped", &board(), &reads(0));

    // Write hits: the lines are modified after the first round.
    let writes = |base| -> Trace {
        reads(base).into_iter().map(|[at, kind, ..]| [at, kind | WRITE, 15, at]).collect()
    };
    trace_line("write hit, unmapped", &board(), &writes(0));
    trace_line("write hit, last entry", &world, &writes(MAPPED + (55 << 12)));

    // Twice as many lines as the cache holds, three writes in ten.
    let mut random = Random::new(1);
    let mix: Trace = (0..CALLS)
        .map(|_| {
            let kind = SUPERVISOR | random.maybe(WRITE, 30);
            [random.word() & 0x7FFC, kind, 15, random.word()]
        })
        .collect();
    trace_line("mix, twice the cache", &board(), &mix);

    // More pages in turn than there are entries; the data hit.
    let pages: Trace =
        (0..CALLS as u32).map(|n| [MAPPED + ((n % 64) << 12) + 0x40, SUPERVISOR, 15, 0]).collect();
    let mut world = board();
    map(&mut world);
    for page in 0..1024 {
        world.ram[0x11000 / 4 + page] = U | M | V;
    }
    trace_line("PATC miss", &world, &pages);

    let mut world = board();
    set(&mut world, SAPR, CI);
    trace_line("inhibited read", &world, &reads(0));

    // Flush of all lines, all modified or all clean.
    let all: Trace = (0..4096).map(|n| [4 * n, SUPERVISOR | WRITE, 15, n]).collect();
    let mut world = board();
    run(&Model, &mut world, &all);
    run(&Model, &mut world, &all);
    call_line("flush all, dirty", &world, flush);
    flush(&Model, &mut world);
    call_line("flush all, clean", &world, flush);

    // Images.
    call_line("save", &world, |machine, world| {
        black_box(machine.save(world, 4096, IMAGE));
    });
    let mut image = vec![0; IMAGE];
    if world.unit.save(&world.cells[..4096], &mut image).is_ok() {
        call_line("restore", &world, |machine, world| {
            black_box(machine.restore(world, 4096, &image));
        });
    }
}
