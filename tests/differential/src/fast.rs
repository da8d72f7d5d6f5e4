//! The C program of `../fast_c`.

const TESTS: usize = 256;
const BYTES: usize = 20 * TESTS + 16;

/// A job that the C program has read.
#[repr(C)]
pub struct Job {
    capacity: u32,
    tests: u32,
    method: u32,
    wants: [u64; TESTS],
    sizes: [u8; TESTS],
}

extern "C" {
    fn fast_plan(job: *const u8, job_len: usize, plan: *mut u8, plan_len: usize) -> u64;
    fn fast_read(bytes: *const u8, length: usize, job: *mut Job) -> u64;
    fn fast_order(job: *const Job, order: *mut u8);
    fn fast_steps(job: *const Job, order: *const u8, out: *mut u8) -> usize;
}

pub fn call(job: &[u8], plan: &mut [u8]) -> u64 {
    unsafe { fast_plan(job.as_ptr(), job.len(), plan.as_mut_ptr(), plan.len()) }
}

/// The stages of the call, each by itself, over memory that is kept from one to the next.
pub struct Stages {
    job: Job,
    order: [u8; TESTS],
    bytes: [u8; BYTES],
}

impl Stages {
    pub fn new() -> Stages {
        Stages {
            job: Job {
                capacity: 0,
                tests: 0,
                method: 0,
                wants: [0; TESTS],
                sizes: [0; TESTS],
            },
            order: [0; TESTS],
            bytes: [0; BYTES],
        }
    }

    pub fn read(&mut self, job: &[u8]) -> u64 {
        unsafe { fast_read(job.as_ptr(), job.len(), &mut self.job) }
    }

    /// After `read`.
    pub fn order(&mut self) {
        unsafe { fast_order(&self.job, self.order.as_mut_ptr()) }
    }

    /// Planning and writing, after `order`.
    pub fn steps(&mut self) -> usize {
        unsafe { fast_steps(&self.job, self.order.as_ptr(), self.bytes.as_mut_ptr()) }
    }
}

impl Default for Stages {
    fn default() -> Stages {
        Stages::new()
    }
}
