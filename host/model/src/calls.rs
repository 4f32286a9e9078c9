//! Setting up, running flags and lines.

use crate::refusal::{done, Answer, Errno};
use crate::state::{is_affinity, Device, Vcpu, FIRST_SPI, MOST_VCPUS};

impl Device {
    /// Adds a vCPU of that affinity; its index is the next one.
    pub fn add_vcpu(&mut self, mpidr: u32) -> i64 {
        done(self.try_add_vcpu(mpidr))
    }

    fn try_add_vcpu(&mut self, mpidr: u32) -> Answer<()> {
        if self.initialised {
            return Err(Errno::Busy);
        }
        if !is_affinity(mpidr) {
            return Err(Errno::Inval);
        }
        if self.index_of(mpidr).is_some() {
            return Err(Errno::Exist);
        }
        if self.vcpu_count == MOST_VCPUS {
            return Err(Errno::Nomem);
        }
        self.vcpus[self.vcpu_count] = Vcpu::added(mpidr);
        self.vcpu_count += 1;
        Ok(())
    }

    /// Marks a vCPU as running or as stopped.
    pub fn set_running(&mut self, v: usize, on: bool) -> i64 {
        done(self.check_vcpu(v).map(|()| self.vcpus[v].running = on))
    }

    /// Stores the level of the line of a PPI of vCPU `v`, or of an SPI.
    pub fn change_line(&mut self, v: usize, id: usize, level: bool) -> i64 {
        done(self.try_change_line(v, id, level))
    }

    fn try_change_line(&mut self, v: usize, id: usize, level: bool) -> Answer<()> {
        self.check_initialised()?;
        if id < FIRST_SPI {
            self.check_vcpu(v)?;
        }
        if id < 16 || !self.exists(id) {
            return Err(Errno::Inval);
        }
        let bank = self.bank_mut(v, id / 32);
        let bit = 1 << (id % 32);
        if level {
            bank.latch |= bit & bank.edge & !bank.line;
            bank.line |= bit;
        } else {
            bank.line &= !bit;
        }
        Ok(())
    }

    pub(crate) fn check_initialised(&self) -> Answer<()> {
        self.initialised.then_some(()).ok_or(Errno::Busy)
    }

    /// Attributes of registers, save and restore need a device that is initialised and stopped.
    pub(crate) fn check_stopped(&self) -> Answer<()> {
        let stopped = self.initialised && !self.any_running();
        stopped.then_some(()).ok_or(Errno::Busy)
    }

    pub(crate) fn check_vcpu(&self, v: usize) -> Answer<()> {
        self.check_initialised()?;
        (v < self.vcpu_count).then_some(()).ok_or(Errno::Inval)
    }

    /// A guest's access needs a running vCPU `v`, and `frame` to be a vCPU's.
    pub(crate) fn check_guest(&self, v: usize, frame: usize) -> Answer<()> {
        self.check_vcpu(v)?;
        self.check_vcpu(frame)?;
        self.vcpus[v].running.then_some(()).ok_or(Errno::Perm)
    }
}
