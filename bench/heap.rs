// Pushes 4,096 numbers and pops them again, by the proved pairing heap or by the standard library's binary heap, over the
// same data. Run under callgrind, which counts the instructions of the two functions whose names begin with `measured`.
// Takes two words: which heap, and which order the numbers come in.
use std::cmp::Reverse;
use std::collections::BinaryHeap;

unsafe extern "C" {
    // crates/bench_heap: at most 4,096 numbers are put into ascending order
    fn sort_4096(numbers: *mut u64, len: usize) -> bool;
}

const COUNT: usize = 4096;

#[unsafe(no_mangle)]
#[inline(never)]
fn measured_pairing(numbers: &mut [u64]) -> bool {
    unsafe { sort_4096(numbers.as_mut_ptr(), numbers.len()) }
}

#[unsafe(no_mangle)]
#[inline(never)]
fn measured_binary(mut heap: BinaryHeap<Reverse<u64>>, numbers: &mut [u64]) -> bool {
    for n in numbers.iter() {
        heap.push(Reverse(*n));
    }
    for place in numbers.iter_mut() {
        let Some(Reverse(n)) = heap.pop() else {
            return false;
        };
        *place = n;
    }
    true
}

// Numbers without a pattern, the same in each run (xorshift).
fn random() -> Vec<u64> {
    let mut x = 0x9e37_79b9_7f4a_7c15u64;
    let mut numbers = Vec::with_capacity(COUNT);
    for _ in 0..COUNT {
        x ^= x << 13;
        x ^= x >> 7;
        x ^= x << 17;
        numbers.push(x);
    }
    numbers
}

fn main() {
    let words: Vec<String> = std::env::args().skip(1).collect();
    let mut numbers = match words[1].as_str() {
        "ascending" => (0..COUNT as u64).collect(),
        "descending" => (0..COUNT as u64).rev().collect(),
        _ => random(),
    };
    let mut expected = numbers.clone();
    expected.sort();
    let done = match words[0].as_str() {
        "pairing" => measured_pairing(&mut numbers),
        _ => measured_binary(BinaryHeap::with_capacity(COUNT), &mut numbers),
    };
    assert!(done && numbers == expected, "the numbers are not sorted");
}
