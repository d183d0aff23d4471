// The job of crates/bench in plain Rust: pairs by an index from values to subjects, closed codes over the distinct codes.
use std::collections::HashMap;

const SUBJECTS: usize = 2048;
const PROPERTIES: usize = 12;
const START: u64 = 88172645463325252;

struct Random(u64);

impl Random {
    fn up_to(&mut self, range: u64) -> u32 {
        let mut x = self.0;
        x ^= x << 13;
        x ^= x >> 7;
        x ^= x << 17;
        self.0 = x;
        ((x % range) & 0xffff) as u32 + 1
    }
}

// The values of every subject at every property.
type Register = Vec<Vec<Vec<u32>>>;

fn register(random: &mut Random, range: u64) -> Register {
    let mut subjects = vec![vec![Vec::new(); PROPERTIES]; SUBJECTS];
    for subject in &mut subjects {
        for list in subject.iter_mut() {
            let mut value = 0;
            for _ in 0..2 {
                value += random.up_to(range);
                list.push(value);
            }
        }
    }
    subjects
}

// (is it share, left property, right property)
type Condition = (bool, usize, usize);

fn conditions(lefts: usize, rights: usize, like: bool) -> Vec<Condition> {
    let mut all = Vec::new();
    for left in 0..lefts {
        for right in 0..rights {
            for share in [false, true] {
                if !like || left == right {
                    all.push((share, left, right));
                }
            }
        }
    }
    all
}

// The pairs that have a code, ascending.
fn coded_pairs(left: &Register, right: &Register, conditions: &[Condition]) -> Vec<(u32, u32, u64)> {
    let k = conditions.len();
    let mut index: Vec<Option<HashMap<u32, Vec<u32>>>> = vec![None; PROPERTIES];
    for &(_, _, q) in conditions {
        index[q].get_or_insert_with(|| {
            let mut by_value: HashMap<u32, Vec<u32>> = HashMap::new();
            for (t, subject) in right.iter().enumerate() {
                for v in &subject[q] {
                    by_value.entry(*v).or_default().push(t as u32);
                }
            }
            by_value
        });
    }
    let mut pairs = Vec::new();
    let mut row = vec![0u64; right.len()];
    let mut shared = vec![0u32; right.len()];
    let mut touched: Vec<u32> = Vec::new();
    for (s, subject) in left.iter().enumerate() {
        for (i, &(share, p, q)) in conditions.iter().enumerate() {
            let weight = 1u64 << (k - 1 - i);
            let by_value = index[q].as_ref().unwrap();
            for v in &subject[p] {
                for &t in by_value.get(v).map_or(&[][..], |ts| ts) {
                    shared[t as usize] += 1;
                    touched.push(t);
                }
            }
            for t in touched.drain(..) {
                let count = shared[t as usize] as usize;
                shared[t as usize] = 0;
                if count > 0 && (share || count == subject[p].len() && count == right[t as usize][q].len()) {
                    row[t as usize] |= weight;
                }
            }
        }
        for (t, code) in row.iter_mut().enumerate() {
            if *code != 0 {
                pairs.push((s as u32, t as u32, *code));
                *code = 0;
            }
        }
    }
    pairs
}

fn widen(codes: &[u64], whole: u64, x: u64) -> u64 {
    let mut all = whole;
    for &code in codes {
        if code & x == x {
            all &= code;
        }
    }
    all
}

fn next(codes: &[u64], whole: u64, k: usize, x: u64) -> Option<u64> {
    for place in 0..k {
        let high = x >> place;
        if high % 2 == 0 {
            let trial = widen(codes, whole, (high + 1) << place);
            if (trial >> place) / 2 == high / 2 {
                return Some(trial);
            }
        }
    }
    None
}

fn bench(range: u64, lefts: usize, rights: usize, like: bool) {
    let mut random = Random(START);
    let left = register(&mut random, range);
    let right = register(&mut random, range);
    let conditions = conditions(lefts, rights, like);
    let k = conditions.len();
    let whole = if k == 64 { u64::MAX } else { (1 << k) - 1 };
    let pairs = coded_pairs(&left, &right, &conditions);
    let mut distinct: Vec<u64> = pairs.iter().map(|p| p.2).collect();
    distinct.sort_unstable();
    distinct.dedup();
    let (mut candidates, mut all_links, mut linked, mut codes) = (0u64, 0u64, 0u64, 0u64);
    let mut last = 0;
    while let Some(x) = next(&distinct, whole, k, last) {
        let (mut lefts, mut rights) = ([false; SUBJECTS], [false; SUBJECTS]);
        let mut links = 0u64;
        for &(s, t, code) in &pairs {
            if code & x == x {
                links += 1;
                lefts[s as usize] = true;
                rights[t as usize] = true;
            }
        }
        if links == 0 {
            break;
        }
        candidates += 1;
        all_links += links;
        linked += lefts.iter().chain(&rights).filter(|m| **m).count() as u64;
        codes = codes.wrapping_mul(31).wrapping_add(x);
        last = x;
    }
    println!("{k} conditions, values below {range}: {candidates} candidates, {all_links} links, {linked} linked, codes {codes}");
}

fn main() {
    bench(60, 12, 12, true);
    bench(300, 12, 12, true);
    bench(3000, 12, 12, true);
    bench(3000, 8, 4, false);
}
