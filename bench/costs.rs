// Adds costs at many places in a plain hash map, and prints how many places there are: `costs KEYS ADDITIONS`.
use std::collections::HashMap;
use std::env;

const EVENTS: usize = 13;
const COST: [u64; EVENTS] = [1, 1, 0, 0, 0, 0, 0, 0, 0, 0, 0, 0, 0];

#[derive(PartialEq, Eq, Hash)]
struct Place {
    func: u32,
    file: u32,
    line: u32,
}

fn main() {
    let numbers: Vec<u32> = env::args().skip(1).map(|word| word.parse().unwrap()).collect();
    let mut map: HashMap<Place, [u64; EVENTS]> = HashMap::new();
    for turn in 0..numbers[1] {
        let key = turn.wrapping_mul(2_654_435_761) % numbers[0];
        let place = Place { func: key / 8, file: key % 3, line: key };
        let sums = map.entry(place).or_insert([0; EVENTS]);
        for (sum, number) in sums.iter_mut().zip(COST) {
            *sum += number;
        }
    }
    println!("{}", map.len());
}
