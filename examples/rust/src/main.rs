//! Five threads pass their numbers round a ring: each adds all that come, and has the same sum at the end.

use nemesis_example::{world, Pick, Rank, Refused};
use std::thread;

const RANKS: usize = 5;
const TAG: u32 = 1;

/// What a rank has added when its own number is back.
fn pass_round(mut rank: Rank) -> Result<u64, Refused> {
    let (me, count) = (rank.number(), rank.count());
    let (next, before) = ((me + 1) % count, (me + count - 1) % count);
    let mut number = u64::from(me);
    let mut sum = 0;
    for _ in 0..count {
        rank.send(next, TAG, &number.to_le_bytes())?;
        let got = rank.receive(Pick::One(before), Pick::One(TAG), 8)?;
        number = u64::from_le_bytes(got.body.try_into().expect("eight bytes"));
        sum += number;
    }
    Ok(sum)
}

fn main() -> Result<(), Refused> {
    let threads: Vec<_> = world(RANKS)?
        .into_iter()
        .map(|it| thread::spawn(|| pass_round(it)))
        .collect();
    for (number, thread) in threads.into_iter().enumerate() {
        println!("rank {number}: {}", thread.join().expect("no rank panics")?);
    }
    match world(65) {
        Err(refused) => println!("65 ranks: {refused}"),
        Ok(_) => println!("65 ranks: made"),
    }
    Ok(())
}
