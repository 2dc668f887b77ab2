//! `sort_unstable`, `sort_by_key` and `binary_search` over numbers, pairs and texts.
#[macro_use]
mod program;

#[derive(Clone, PartialEq, Eq, PartialOrd, Ord)]
struct Person {
    age: u8,
    name: [u8; 6],
    number: u32,
}

fn next(state: &mut u64) -> u32 {
    *state ^= *state << 13;
    *state ^= *state >> 7;
    *state ^= *state << 17;
    (*state >> 16) as u32
}

fn person(state: &mut u64) -> Person {
    let mut name = [b'a'; 6];
    for letter in name.iter_mut() {
        *letter += (next(state) % 26) as u8;
    }
    Person { age: (next(state) % 90) as u8, name, number: next(state) }
}

fn run(rounds: u32) -> u32 {
    let (mut state, mut sum) = (88172645463325252u64, 0u32);
    for round in 0..rounds {
        let mut numbers: Vec<u32> = (0..12_000).map(|_| next(&mut state) >> (round % 12)).collect();
        numbers.sort_unstable();
        for _ in 0..2_000 {
            let wanted = next(&mut state) >> (round % 12);
            sum = match numbers.binary_search(&wanted) {
                Ok(place) => sum.wrapping_mul(3).wrapping_add(place as u32),
                Err(place) => sum.wrapping_mul(5) ^ place as u32,
            };
        }
        let mut people: Vec<Person> = (0..900).map(|_| person(&mut state)).collect();
        people.sort_by_key(|person| person.number);
        people.sort_by(|a, b| a.age.cmp(&b.age));
        sum ^= people.windows(2).filter(|two| two[0].age == two[1].age && two[0].number > two[1].number).count() as u32;
        people.sort_unstable();
        let tenth = people.iter().step_by(10);
        sum = tenth.fold(sum, |sum, person| sum.rotate_left(3) ^ u32::from(person.name[2]) ^ person.number);
        numbers.reverse();
        numbers.sort_unstable_by(|a, b| (a % 1000).cmp(&(b % 1000)).then(b.cmp(a)));
        sum ^= numbers[round as usize * 100 % numbers.len()];
    }
    sum
}

program!(run(4));
