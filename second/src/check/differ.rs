//! Runs sequences of calls, alone or on two implementations at once.

use crate::check::coverage::{broken_rules, Before, Coverage};
use crate::check::generate::{Generator, Start, Step};
use crate::check::machine::{Given, Machine, Model, UNTOUCHED};
use crate::check::world::{own_value, Call, Part, World};
use crate::unit::CONTROL_SPACE;
use crate::{Unit, IMAGE};

/// The sequences to be run.
#[derive(Clone, Copy, Debug, PartialEq, Eq)]
pub enum Mix {
    All,
    Images,
}

impl Mix {
    fn next(self, generator: &mut Generator, world: &World) -> Step {
        match self {
            Mix::All => generator.next(world),
            Mix::Images => generator.next_image(world),
        }
    }
}

/// Runs the model, and beside it another implementation if there is one.
pub struct Differ {
    other: Option<Box<dyn Machine>>,
    /// Whether bits that do not count may differ.
    pub own_bits_only: bool,
    /// Whether each step is shown before it is taken.
    pub trace: bool,
    pub coverage: Coverage,
}

impl Differ {
    pub fn new(other: Option<Box<dyn Machine>>) -> Self {
        Differ { other, own_bits_only: false, trace: false, coverage: Coverage::default() }
    }

    /// Against the proved implementation where it is linked.
    pub fn against_proved() -> Self {
        #[cfg(have_proved)]
        let other: Option<Box<dyn Machine>> = Some(Box::new(crate::check::proved::Proved));
        #[cfg(not(have_proved))]
        let other: Option<Box<dyn Machine>> = None;
        Differ::new(other)
    }

    /// One sequence of so many steps. What goes wrong is told with the call
    /// and the state before it.
    pub fn sequence(&mut self, seed: u64, start: Start, mix: Mix, steps: usize) -> Result<(), String> {
        let (generator, world) = Generator::new(seed, start);
        self.steps(generator, world, (start, mix), steps).map_err(|(number, what)| {
            let (generator, world) = Generator::new(seed, start);
            let state = state_before(generator, world, mix, number);
            format!("seed {seed}, {start:?}, {mix:?}, step {number}: {what}\n{state}")
        })
    }

    /// The steps of a sequence; an error names the step.
    pub fn steps(
        &mut self,
        mut generator: Generator,
        mut world: World,
        (start, mix): (Start, Mix),
        steps: usize,
    ) -> Result<(), (usize, String)> {
        let mut other = self.other.is_some().then(|| world.clone());
        for number in 0..steps {
            let step = mix.next(&mut generator, &world);
            if self.trace {
                eprintln!("step {number}: {step:?}");
            }
            let at = |what: String| (number, format!("{step:?}\n{what}"));
            match &step {
                Step::Set(part, index, value) => {
                    world.set(*part, *index, *value);
                    if let Some(other) = &mut other {
                        other.set(*part, *index, *value);
                    }
                }
                Step::Call(call) => self.step(&mut world, other.as_mut(), call, number).map_err(at)?,
            }
            if start == Start::Reset && number % 64 == 63 {
                well_formed(&world).map_err(at)?;
            }
        }
        Ok(())
    }

    /// One call on both worlds, with all comparisons.
    pub fn step(
        &mut self,
        world: &mut World,
        other: Option<&mut World>,
        call: &Call,
        number: usize,
    ) -> Result<(), String> {
        let broken = broken_rules(call);
        let may_be_refused = !broken.is_empty() || matches!(call, Call::Restore { .. });
        let kept = may_be_refused.then(|| world.clone());
        let cleared = (broken.is_empty() && number.is_multiple_of(8)).then(|| without_foreign_bits(world));
        let before = broken.is_empty().then(|| Before::new(world, call));
        let fault = world.unit.fault;

        let given = Model.call(world, call);

        if let (Some(machine), Some(other)) = (&self.other, other) {
            let theirs = machine.call(other, call);
            compare(&given, world, &theirs, other, call, self.own_bits_only)
                .map_err(|what| format!("{} against {}: {what}", Model.name(), machine.name()))?;
        }

        check_refusal(call, &given, &broken)?;
        if given.refusal != 0 {
            if kept.is_some_and(|kept| kept != *world) {
                return Err("a refusal changed something".into());
            }
            self.coverage.refused(call, given.refusal);
            return Ok(());
        }
        check_answer(call, &given, fault, world)?;
        if let Some(cleared) = cleared {
            check_foreign_bits(cleared, call, &given, world)?;
        }
        if let Some(before) = before {
            self.coverage.done(&before, call, &given, world);
        }
        Ok(())
    }
}

// ------------------------------------------------------------ comparison

/// Compares what two calls gave back and left behind.
fn compare(
    ours: &Given,
    our_world: &World,
    theirs: &Given,
    their_world: &World,
    call: &Call,
    own_bits_only: bool,
) -> Result<(), String> {
    let difference = if ours != theirs {
        Some("the answers differ".into())
    } else {
        difference(our_world, their_world, call, own_bits_only)
    };
    match difference {
        None => Ok(()),
        Some(what) => Err(format!("{what}\n ours: {}\ntheirs: {}", show(ours), show(theirs))),
    }
}

fn show(given: &Given) -> String {
    format!("refusal {}, reply {}", given.refusal, hex(&given.reply))
}

/// Words in hexadecimal, without those at the end that say nothing.
fn hex(words: &[u32]) -> String {
    let last = words.iter().rposition(|&word| word != 0 && word != UNTOUCHED).map_or(0, |last| last + 1);
    let words: Vec<String> = words[..last].iter().map(|word| format!("{word:X}")).collect();
    format!("[{}]", words.join(" "))
}

/// The state in which a step of a sequence found the model.
fn state_before(mut generator: Generator, mut world: World, mix: Mix, number: usize) -> String {
    for _ in 0..number {
        match mix.next(&mut generator, &world) {
            Step::Set(part, index, value) => world.set(part, index, value),
            Step::Call(call) => drop(Model.call(&mut world, &call)),
        }
    }
    let mut lines = vec![
        format!("before: registers {}, fault {}", hex(&world.unit.regs), hex(&world.unit.fault)),
        format!("memory lent: {:?}", world.lend),
    ];
    for (entry, pair) in world.unit.patc.chunks(2).enumerate().filter(|(_, pair)| pair[0] & 1 != 0) {
        lines.push(format!("entry {entry}: {}", hex(pair)));
    }
    let sets = world.unit.lines.chunks(5).enumerate();
    for (set, words) in sets.filter(|(_, words)| words[..4].iter().any(|tag| tag & 3 != 3)).take(12) {
        lines.push(format!("set {set}: {}", hex(words)));
    }
    lines.join("\n")
}

/// The first word or byte in which two worlds differ.
fn difference(ours: &World, theirs: &World, call: &Call, own_bits_only: bool) -> Option<String> {
    for part in Part::ALL {
        if ours.part(part) == theirs.part(part) {
            continue;
        }
        let pairs = ours.part(part).iter().zip(theirs.part(part)).enumerate();
        for (index, (&our, &their)) in pairs {
            let same = own_value(part, index, our) == own_value(part, index, their);
            if our == their || own_bits_only && same {
                continue;
            }
            let note = if same { " (only in bits that do not count)" } else { "" };
            return Some(format!("{part:?}[{index}]: ours {our:08X}, theirs {their:08X}{note}"));
        }
    }
    if !matches!(call, Call::Save { .. }) || ours.out == theirs.out {
        return None;
    }
    let at = (0..ours.out.len()).find(|&at| ours.out[at] != theirs.out[at])?;
    Some(format!("output byte {at}: ours {:02X}, theirs {:02X}", ours.out[at], theirs.out[at]))
}

// ----------------------------------------------- what holds of the model

fn demand(holds: bool, what: &str) -> Result<(), String> {
    if holds {
        Ok(())
    } else {
        Err(what.into())
    }
}

/// The number is that of the first broken rule, and the reply is untouched.
fn check_refusal(call: &Call, given: &Given, broken: &[u32]) -> Result<(), String> {
    let expected = match (broken.first(), call) {
        (Some(&number), _) => given.refusal == number,
        (None, Call::Restore { .. }) => matches!(given.refusal, 0 | 8 | 9 | 10),
        (None, _) => given.refusal == 0,
    };
    demand(expected, &format!("refusal {} where rules {broken:?} are broken", given.refusal))?;
    let untouched = given.reply.iter().all(|&word| word == UNTOUCHED);
    demand(given.refusal == 0 || untouched, "a refusal wrote a reply")
}

fn check_answer(call: &Call, given: &Given, fault: [u32; 2], world: &World) -> Result<(), String> {
    match *call {
        Call::Access { address, kind, .. } => {
            let control = kind & 0x80 != 0 && address >= CONTROL_SPACE;
            check_access(given, control, fault, world)
        }
        Call::Snoop { .. } => demand(given.reply[0] <= 2, "a snoop's answer"),
        Call::Save { out, .. } => check_saved(world, out),
        Call::Restore { ref image, .. } => {
            let mut again = vec![0; IMAGE];
            let saved = world.unit.save(&world.cells[..4096], &mut again);
            demand(saved.is_ok() && again == *image, "a restored image is saved differently")
        }
        _ => Ok(()),
    }
}

fn check_access(given: &Given, control: bool, fault: [u32; 2], world: &World) -> Result<(), String> {
    let [outcome, code, address, words, listed, ..] = given.reply;
    let list = &given.reply[5..23];
    let used = 3 * listed as usize;
    demand(outcome <= 3, "an unknown outcome")?;
    demand(listed <= 6, "more than six transactions")?;
    demand(
        list[used.min(18)..].iter().all(|&word| word == 0) && given.reply[23] == 0,
        "unused words of the reply",
    )?;
    if control {
        demand(listed == 0, "control space lists a transaction")?;
    } else {
        let counts = || list[..used].chunks(3).map(|transaction| transaction[2]);
        demand(words <= 12, "more than twelve words")?;
        demand(counts().sum::<u32>() == words, "the word count is not the list's")?;
        let failed = counts().position(|count| count == 0);
        demand(
            failed.is_none_or(|place| place as u32 == listed - 1),
            "a failed transaction is not the last",
        )?;
        demand(failed.is_none() || outcome == 3 && code == 3, "a failed transaction without its fault")?;
        demand(outcome != 0 || words == 0 && listed == 0, "an idle access moves words")?;
    }
    if outcome == 3 {
        demand((3..8).contains(&code), "an unknown fault")?;
        demand(world.unit.fault == [code << 16, address], "the fault pair is not the fault's")
    } else {
        demand(control || world.unit.fault == fault, "the fault pair changed without a fault")
    }
}

fn check_saved(world: &World, out: usize) -> Result<(), String> {
    demand(world.out[out.min(IMAGE)..].iter().all(|&byte| byte == 0xEE), "bytes past the image changed")?;
    let (mut unit, mut cells) = (Unit::default(), vec![0; 4096]);
    if unit.restore(&mut cells, &world.out[..IMAGE]).is_ok() {
        let mut own = world.clone();
        own.clear_foreign_bits();
        demand(unit == own.unit && cells == own.cells[..4096], "a saved image reads back differently")?;
    }
    Ok(())
}

/// A state reached from reset can be saved and read back, and is the same.
fn well_formed(world: &World) -> Result<(), String> {
    let mut image = vec![0; IMAGE];
    let (mut unit, mut cells) = (Unit::default(), vec![0; 4096]);
    world
        .unit
        .save(&world.cells[..4096], &mut image)
        .map_err(|number| format!("saving refused: {number}"))?;
    unit.restore(&mut cells, &image).map_err(|number| format!("not well formed: {number}"))?;
    demand(unit == world.unit && cells == world.cells[..4096], "a state from reset reads back differently")
}

fn without_foreign_bits(world: &World) -> World {
    let mut cleared = world.clone();
    cleared.clear_foreign_bits();
    cleared
}

/// The same call without the bits that do not count gives the same.
fn check_foreign_bits(mut cleared: World, call: &Call, given: &Given, world: &World) -> Result<(), String> {
    let again = Model.call(&mut cleared, call);
    demand(again == *given, "bits that do not count change the answer")?;
    cleared.clear_foreign_bits();
    match difference(&cleared, world, call, true) {
        None => Ok(()),
        Some(what) => Err(format!("bits that do not count change the state: {what}")),
    }
}
