//! Decodes document 01's whole case through the C interface, each function wrapped in a safe one, and asks which digits its set has; then
//! the same words cut, and damaged.
//! examples/run.sh builds and runs it.

mod c {
    #[link(name = "capi", kind = "static")]
    unsafe extern "C" {
        pub fn gatehazel_decode(
            words: *const i32, words_len: usize,
            states: *mut i32, states_len: usize, edges: *mut i32, edges_len: usize, ranges: *mut i32, ranges_len: usize,
            sets: *mut i32, sets_len: usize, rules: *mut i32, rules_len: usize, modes: *mut i32, modes_len: usize,
            decisions: *mut i32, decisions_len: usize, actions: *mut i32, actions_len: usize, scratch: *mut i32, scratch_len: usize,
            answer: *mut i64, answer_len: usize,
        ) -> u32;
        pub fn gatehazel_lookup(ranges: *const i32, ranges_len: usize, value: i32) -> u32;
    }
}

/// The nine tables, lent to a decode.
struct Tables {
    states: Vec<i32>, edges: Vec<i32>, ranges: Vec<i32>, sets: Vec<i32>, rules: Vec<i32>,
    modes: Vec<i32>, decisions: Vec<i32>, actions: Vec<i32>, scratch: Vec<i32>,
}

/// The answer: the counts, or the refusal's number, field, place, value and record.
fn decode(words: &[i32], t: &mut Tables) -> Result<[i64; 16], [i64; 16]> {
    let mut answer = [0i64; 16];
    // Sound: every pointer comes from a slice with its own length, and the borrow checker keeps the slices apart.
    let refused = unsafe {
        c::gatehazel_decode(
            words.as_ptr(), words.len(),
            t.states.as_mut_ptr(), t.states.len(), t.edges.as_mut_ptr(), t.edges.len(), t.ranges.as_mut_ptr(), t.ranges.len(),
            t.sets.as_mut_ptr(), t.sets.len(), t.rules.as_mut_ptr(), t.rules.len(), t.modes.as_mut_ptr(), t.modes.len(),
            t.decisions.as_mut_ptr(), t.decisions.len(), t.actions.as_mut_ptr(), t.actions.len(), t.scratch.as_mut_ptr(), t.scratch.len(),
            answer.as_mut_ptr(), answer.len(),
        )
    };
    if refused == 0 { Ok(answer) } else { Err(answer) }
}

fn lookup(ranges: &[i32], value: i32) -> bool {
    unsafe { c::gatehazel_lookup(ranges.as_ptr(), ranges.len(), value) == 1 }
}

fn main() {
    let words = [
        4, 0, 1, 4, 6, -1, 2, 0, 7, 0, 1, 0, 0, 0, 1, 1, 1, 1, 0, 1, 2, 0, 48, 52, 53, 57, 3, 0, 1, 1, 0, 0, 0, 1, 3, 7, 0, 0, 0,
        3, 2, 1, 0, 0, 0, 1, 0, 1, 6, 0, 0,
    ];
    let lent = |n: usize| vec![7i32; n];
    let mut t = Tables {
        states: lent(64), edges: lent(64), ranges: lent(16), sets: lent(8), rules: lent(12),
        modes: lent(4), decisions: lent(4), actions: lent(12), scratch: lent(32),
    };
    match decode(&words, &mut t) {
        Ok(a) => {
            println!("{} words read, {} states, {} edges, {} ranges", a[0], a[2], a[3], a[5]);
            let set = &t.ranges[2 * t.sets[0] as usize..2 * (t.sets[0] + t.sets[1]) as usize];
            let digits: String = ('!'..='z').filter(|c| lookup(set, *c as i32)).collect();
            println!("set 0 has {digits}");
        }
        Err(a) => println!("refused {}: field {}, place {}, value {}, record {}", a[0], a[1], a[2], a[3], a[4]),
    }
    let mut damaged = words;
    damaged[10] = 13; // the type of state 3, the last
    for (what, list) in [("cut after 50 words", &words[..50]), ("with 13 at place 10", &damaged[..])] {
        println!("{what}: {:?}", decode(list, &mut t).map_err(|a| a[..5].to_vec()));
    }
}
