//! A trap handler over the proved virtual GICv3, with a small scripted guest of two vCPUs that moves from one board to another.
//!
//! Each step prints a line; the value, the outcome and the signals of each are asserted, so the program fails where one is another.

use vgic::registers::{distributor, frame, system};
use vgic::{Device, Errno, Mpidr, Signal, Size, VcpuIndex, RECORD_MOST};

/// The vCPUs' affinities, in the order of their indices.
const AFFINITIES: [Mpidr; 2] = [Mpidr(0x100), Mpidr(0x101)];

/// The flash controller's level SPI, at bit 8 of word 1.
const FLASH: usize = 40;

/// The bytes of the record saved: 98 values, of which 15 take more than one byte.
const RECORD_LENGTH: usize = 120;

/// Where a load or a store goes: the distributor, or the frame of a vCPU.
#[derive(Clone, Copy)]
enum Place {
    Gicd,
    Gicr(VcpuIndex),
}

/// An access of the guest that trapped.
#[derive(Clone, Copy)]
enum Access {
    Load(Place, u64, Size),
    Store(Place, u64, Size, u64),
    Mrs(u64),
    Msr(u64, u64),
}

/// What the guest gets for an access.
#[derive(Clone, Copy, Debug, PartialEq)]
enum Outcome {
    Value(u64),
    Done,
    Undefined,
}

/// What happens in a step: an access of a vCPU with its outcome, or a change of the flash controller's line.
enum Event {
    Trap(usize, Access, Outcome),
    Line(bool),
}

/// A board: a device, and the virtual interrupts that its hypervisor has asserted.
struct Board {
    name: &'static str,
    device: Device,
    asserted: [Signal; 2],
}

impl Board {
    /// The guest's device: 64 interrupts and two vCPUs, stopped.
    fn new(name: &'static str) -> Result<Board, Errno> {
        let mut device = Device::new();
        device.set_count(64)?;
        for mpidr in AFFINITIES {
            device.add_vcpu(mpidr)?;
        }
        device.initialise()?;
        let asserted = [Signal::None; 2];
        println!("{name}: {} interrupts, 2 vCPUs", device.count()?);
        Ok(Board {
            name,
            device,
            asserted,
        })
    }

    /// Marks both vCPUs as entered, or as left.
    fn run(&mut self, on: bool) -> Result<(), Errno> {
        for v in 0..2 {
            self.device.set_running(VcpuIndex(v), on)?;
        }
        let what = if on { "entered" } else { "stopped" };
        println!("{}: vCPUs {what}", self.name);
        Ok(())
    }

    fn load_word(&self, v: VcpuIndex, place: Place, at: u64, size: Size) -> Result<u64, Errno> {
        let word = match place {
            Place::Gicd => self.device.read_distributor(v, at, size)?,
            Place::Gicr(f) => self.device.read_frame(v, f, at, size)?,
        };
        Ok(word.into())
    }

    /// A load; one of 64 bits is two words, the low one first.
    fn load(&self, v: VcpuIndex, place: Place, at: u64, size: Size) -> Result<u64, Errno> {
        if size != Size::Doubleword {
            return self.load_word(v, place, at, size);
        }
        let low = self.load_word(v, place, at, Size::Word)?;
        Ok(low | self.load_word(v, place, at + 4, Size::Word)? << 32)
    }

    fn store_word(
        &mut self,
        v: VcpuIndex,
        place: Place,
        at: u64,
        size: Size,
        value: u64,
    ) -> Result<(), Errno> {
        match place {
            Place::Gicd => self.device.write_distributor(v, at, size, value),
            Place::Gicr(f) => self.device.write_frame(v, f, at, size, value),
        }
    }

    /// A store; one of 64 bits is two words, the low one first.
    fn store(
        &mut self,
        v: VcpuIndex,
        place: Place,
        at: u64,
        size: Size,
        value: u64,
    ) -> Result<(), Errno> {
        if size != Size::Doubleword {
            return self.store_word(v, place, at, size, value);
        }
        self.store_word(v, place, at, Size::Word, value)?;
        self.store_word(v, place, at + 4, Size::Word, value >> 32)
    }

    /// The call that an access is.
    fn serve(&mut self, v: VcpuIndex, access: Access) -> Result<Outcome, Errno> {
        Ok(match access {
            Access::Load(place, at, size) => Outcome::Value(self.load(v, place, at, size)?),
            Access::Store(place, at, size, value) => {
                self.store(v, place, at, size, value)?;
                Outcome::Done
            }
            Access::Mrs(encoding) => Outcome::Value(self.device.read_system(v, encoding)?.into()),
            Access::Msr(encoding, value) => {
                self.device.write_system(v, encoding, value)?;
                Outcome::Done
            }
        })
    }

    /// The trap handler: a guest can cause ENXIO alone, any other refusal is the hypervisor's own fault.
    fn trap(&mut self, v: VcpuIndex, access: Access) -> Outcome {
        match self.serve(v, access) {
            Ok(outcome) => outcome,
            Err(Errno::Nxio) => Outcome::Undefined,
            Err(errno) => panic!("the guest is stopped: {errno}"),
        }
    }

    /// Asks for the signal of each vCPU, asserts it, and ends the step's line with it.
    fn inject(&mut self, wanted: [Signal; 2]) -> Result<(), Errno> {
        for (v, asserted) in self.asserted.iter_mut().enumerate() {
            *asserted = self.device.query_signal(VcpuIndex(v))?;
        }
        let [first, second] = self.asserted.map(signal_name);
        println!("; signals {first} {second}");
        assert_eq!(self.asserted, wanted);
        Ok(())
    }

    fn step(&mut self, event: &Event, signals: [Signal; 2]) -> Result<(), Errno> {
        print!("{}: ", self.name);
        match *event {
            Event::Trap(v, access, wanted) => {
                let outcome = self.trap(VcpuIndex(v), access);
                print!("vCPU {v} ");
                print_access(access);
                print_outcome(outcome);
                assert_eq!(outcome, wanted);
            }
            Event::Line(level) => {
                self.device.change_line(VcpuIndex(0), FLASH, level)?;
                print!("line {FLASH} {}", if level { "high" } else { "low" });
            }
        }
        self.inject(signals)
    }

    fn play(&mut self, steps: &[(Event, [Signal; 2])]) -> Result<(), Errno> {
        steps
            .iter()
            .try_for_each(|(event, signals)| self.step(event, *signals))
    }
}

fn signal_name(signal: Signal) -> &'static str {
    match signal {
        Signal::None => "none",
        Signal::Irq => "irq",
        Signal::Fiq => "fiq",
    }
}

fn print_place(place: Place, at: u64, size: Size) {
    match place {
        Place::Gicd => print!("GICD+{at:#x} size {}", size.bytes()),
        Place::Gicr(f) => print!("GICR{}+{at:#x} size {}", f.0, size.bytes()),
    }
}

fn print_access(access: Access) {
    match access {
        Access::Load(place, at, size) => {
            print!("loads ");
            print_place(place, at, size);
        }
        Access::Store(place, at, size, value) => {
            print!("stores {value:#x} to ");
            print_place(place, at, size);
        }
        Access::Mrs(encoding) => print!("MRS {encoding:#x}"),
        Access::Msr(encoding, value) => print!("MSR {encoding:#x} {value:#x}"),
    }
}

fn print_outcome(outcome: Outcome) {
    match outcome {
        Outcome::Value(value) => print!(": {value:#x}"),
        Outcome::Done => {}
        Outcome::Undefined => print!(": undefined instruction"),
    }
}

// ---- the script

const IDLE: [Signal; 2] = [Signal::None, Signal::None];
const FIRST: [Signal; 2] = [Signal::Irq, Signal::None];
const SECOND: [Signal; 2] = [Signal::None, Signal::Irq];

const GICD: Place = Place::Gicd;
const GICR0: Place = Place::Gicr(VcpuIndex(0));
const GICR1: Place = Place::Gicr(VcpuIndex(1));

const fn load(v: usize, place: Place, at: u64, size: Size, value: u64) -> Event {
    Event::Trap(v, Access::Load(place, at, size), Outcome::Value(value))
}

const fn store(v: usize, place: Place, at: u64, size: Size, value: u64) -> Event {
    Event::Trap(v, Access::Store(place, at, size, value), Outcome::Done)
}

const fn mrs(v: usize, encoding: u64, value: u64) -> Event {
    Event::Trap(v, Access::Mrs(encoding), Outcome::Value(value))
}

const fn msr(v: usize, encoding: u64, value: u64) -> Event {
    Event::Trap(v, Access::Msr(encoding, value), Outcome::Done)
}

const fn undefined(v: usize, access: Access) -> Event {
    Event::Trap(v, access, Outcome::Undefined)
}

/// The guest boots: the flash controller's SPI to vCPU 0 with priority 0xA0, SGI 3 of both vCPUs with 0x40, all of group 1.
const BOOT: &[(Event, [Signal; 2])] = &[
    (
        load(0, GICD, distributor::TYPER, Size::Word, 0x0248_0001),
        IDLE,
    ),
    (
        load(0, GICR1, frame::TYPER, Size::Doubleword, 0x101_0000_0110),
        IDLE,
    ),
    (store(0, GICD, distributor::CTLR, Size::Word, 2), IDLE),
    (load(0, GICD, distributor::CTLR, Size::Word, 0x52), IDLE),
    (
        store(0, GICD, distributor::igroupr(1), Size::Word, 0x100),
        IDLE,
    ),
    (
        store(0, GICD, distributor::ipriorityr_byte(40), Size::Byte, 0xA5),
        IDLE,
    ),
    (
        load(0, GICD, distributor::ipriorityr_byte(40), Size::Byte, 0xA0),
        IDLE,
    ),
    (
        store(0, GICD, distributor::irouter(40), Size::Doubleword, 0x100),
        IDLE,
    ),
    (
        load(0, GICD, distributor::irouter(40), Size::Doubleword, 0x100),
        IDLE,
    ),
    (
        store(0, GICD, distributor::isenabler(1), Size::Word, 0x100),
        IDLE,
    ),
    (store(0, GICR0, frame::IGROUPR0, Size::Word, 8), IDLE),
    (
        store(0, GICR0, frame::ipriorityr_byte(3), Size::Byte, 0x40),
        IDLE,
    ),
    (store(0, GICR0, frame::ISENABLER0, Size::Word, 8), IDLE),
    (msr(0, system::PMR, 0xFF), IDLE),
    (mrs(0, system::PMR, 0xF8), IDLE),
    (msr(0, system::IGRPEN1, 1), IDLE),
    (store(1, GICR1, frame::IGROUPR0, Size::Word, 8), IDLE),
    (
        store(1, GICR1, frame::ipriorityr_byte(3), Size::Byte, 0x40),
        IDLE,
    ),
    (store(1, GICR1, frame::ISENABLER0, Size::Word, 8), IDLE),
    (msr(1, system::PMR, 0xFF), IDLE),
    (msr(1, system::IGRPEN1, 1), IDLE),
];

/// The flash controller's interrupt is taken and preempted by an SGI from vCPU 1; an SGI to vCPU 1 is left pending.
const WORK: &[(Event, [Signal; 2])] = &[
    (Event::Line(true), FIRST),
    (mrs(0, system::HPPIR1, 40), FIRST),
    (mrs(0, system::IAR1, 40), IDLE),
    (mrs(0, system::RPR, 0xA0), IDLE),
    (msr(1, system::SGI1R, 0x0301_0001), FIRST),
    (mrs(0, system::IAR1, 3), IDLE),
    (mrs(0, system::RPR, 0x40), IDLE),
    (mrs(0, system::AP1R0, 0x0010_0100), IDLE),
    (msr(0, system::EOIR1, 3), IDLE),
    (mrs(0, system::RPR, 0xA0), IDLE),
    (undefined(0, Access::Mrs(system::SGI1R)), IDLE),
    (undefined(0, Access::Msr(system::IAR1, 0)), IDLE),
    (load(0, GICD, distributor::TYPER, Size::Halfword, 0), IDLE),
    (msr(0, system::SGI1R, 0x0301_0002), SECOND),
    (
        load(0, GICD, distributor::isactiver(1), Size::Word, 0x100),
        SECOND,
    ),
];

/// On the other board: the SGI is taken, the flash controller's interrupt is ended with its line low, then once with its line high.
const RESUMED: &[(Event, [Signal; 2])] = &[
    (mrs(1, system::IAR1, 3), IDLE),
    (msr(1, system::EOIR1, 3), IDLE),
    (mrs(1, system::IAR1, 1023), IDLE),
    (mrs(0, system::RPR, 0xA0), IDLE),
    (
        load(0, GICD, distributor::ispendr(1), Size::Word, 0x100),
        IDLE,
    ),
    (Event::Line(false), IDLE),
    (load(0, GICD, distributor::ispendr(1), Size::Word, 0), IDLE),
    (msr(0, system::EOIR1, 40), IDLE),
    (mrs(0, system::RPR, 0xFF), IDLE),
    (Event::Line(true), FIRST),
    (mrs(0, system::IAR1, 40), IDLE),
    (msr(0, system::EOIR1, 40), FIRST),
    (Event::Line(false), IDLE),
];

/// Saves the stopped device of one board and restores it onto the fresh one of another.
fn migrate(from: &Board, to: &mut Board) -> Result<(), Errno> {
    let mut buf = [0; RECORD_MOST];
    let record = from.device.save(&mut buf)?;
    println!("{}: saved {} bytes", from.name, record.len());
    assert_eq!(record.len(), RECORD_LENGTH);
    to.device.restore(record)?;
    print!("{}: restored", to.name);
    to.inject(SECOND)?;
    assert_eq!(from.device, to.device);
    let again = to.device.restore(record).unwrap_err();
    println!(
        "{}: a second restore refused with {}",
        to.name,
        again.number()
    );
    assert_eq!(again, Errno::Exist);
    Ok(())
}

fn main() -> Result<(), Errno> {
    let mut recorder = Board::new("recorder")?;
    recorder.run(true)?;
    recorder.play(BOOT)?;
    recorder.play(WORK)?;
    let refused = recorder.device.save(&mut [0; RECORD_MOST]).unwrap_err();
    println!(
        "recorder: a save while vCPUs run refused with {}",
        refused.number()
    );
    assert_eq!(refused, Errno::Busy);
    recorder.run(false)?;
    let mut spare = Board::new("spare")?;
    migrate(&recorder, &mut spare)?;
    spare.run(true)?;
    spare.play(RESUMED)?;
    println!("{} steps", BOOT.len() + WORK.len() + RESUMED.len());
    Ok(())
}
