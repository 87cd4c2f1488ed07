//! How much stack a play takes.
//!
//! The stack below the caller is painted with a pattern, the play is called, and then the lowest byte that is no
//! longer painted is looked for. The memory is read through `/proc/self/mem`, so that not one unsafe line is needed.

use std::fs::File;
use std::hint::black_box;
use std::os::unix::fs::FileExt;
use std::thread;

use crate::random::Random;
use crate::script::{Calls, Operation};
use crate::scripts::{Script, Source, random_script};
use crate::side::Side;

/// So many bytes below the caller are painted.
const PAINTED: usize = 256 * 1024;
const PAINT: u8 = 0xC9;
/// What the thread has for itself beside what is painted.
const SPARE: usize = 256 * 1024;
const SCRIPTS: usize = 400;

/// What plays on the two stores take at most, and what the measuring itself takes at most, in bytes.
pub struct Marks {
    pub table: usize,
    pub image: usize,
    pub measuring: usize,
}

/// The high-water marks of a side over random scripts.
pub fn high_water_marks(side: Side, seed: u64) -> Marks {
    let measured = thread::Builder::new().stack_size(PAINTED + SPARE).spawn(move || {
        let mut marks = Marks { table: 0, image: 0, measuring: high_water(|| ()) };
        let mut random = Random::new(seed);
        for _ in 0..SCRIPTS {
            let script = without_another_hub(random_script(&mut random));
            let mut out = vec![0; script.room];
            let mark = high_water(|| {
                side.play(&script, &mut out);
            });
            let most = match script.source {
                Source::Table(_) => &mut marks.table,
                Source::Image(_) => &mut marks.image,
            };
            *most = mark.max(*most);
        }
        marks
    });
    measured.expect("a thread").join().expect("a thread that measures")
}

/// A script without operation 8, whose other hub is the script's and would not be on the device.
fn without_another_hub(mut script: Script) -> Script {
    let mut calls = Vec::new();
    for call in Calls::of(&script.calls).filter(|call| Operation::of(call.operation) != Operation::HandElsewhere) {
        call.write(&mut calls);
    }
    script.calls = calls;
    script
}

/// How much of the stack below its caller a call has written to.
#[inline(never)]
fn high_water(call: impl FnOnce()) -> usize {
    let memory = File::open("/proc/self/mem").expect("a system with /proc");
    let mut area = vec![0; PAINTED];
    let lowest = paint();
    call();
    memory.read_exact_at(&mut area, lowest as u64).expect("the thread's own stack");
    let untouched = area.iter().take_while(|&&byte| byte == PAINT).count();
    PAINTED - untouched
}

/// Paints the stack below the caller, and tells the address of the lowest painted byte.
#[inline(never)]
fn paint() -> usize {
    let mut area = [PAINT; PAINTED];
    black_box(&mut area).as_ptr().addr()
}
