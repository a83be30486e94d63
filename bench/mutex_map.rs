//! Writes and reads 1,024 bytes by turns in eight hash maps under std's Mutex, in 1, 2, 4 and 8 threads, on eight keys and on one; it
//! prints for each the number of keys, the threads, the requests of all and the nanoseconds.

use std::collections::HashMap;
use std::hint::black_box;
use std::sync::Mutex;
use std::thread;
use std::time::Instant;

const REQUESTS: u64 = 200_000;

const SHARDS: usize = 8;

struct Item {
    body: Vec<u8>,
    minutes: u64,
    touched: u64,
}

type Shard = Mutex<HashMap<Vec<u8>, Item>>;

fn shard_of(key: &[u8]) -> usize {
    let hash = key.iter().fold(0, |hash, byte| (hash * 31 + usize::from(*byte)) % 65536);
    hash % SHARDS
}

fn ask_often(shards: &[Shard], count: u64, keys: u8) {
    for turn in 0..count {
        let key = vec![b'/', b'a', (turn % u64::from(keys)) as u8];
        let shard = &shards[shard_of(&key)];
        if turn / u64::from(keys) % 2 == 0 {
            let item = Item { body: vec![b'x'; 1024], minutes: 20, touched: 0 };
            let old = shard.lock().unwrap().insert(key, item);
            drop(old);
        } else {
            let found = shard.lock().unwrap().get_mut(&key).map(|item| {
                item.touched = item.touched.max(0);
                (item.body.clone(), item.minutes)
            });
            black_box(found);
        }
    }
}

fn main() {
    for keys in [8, 1] {
        for threads in [1, 2, 4, 8] {
            let shards: Vec<Shard> = (0..SHARDS).map(|_| Shard::default()).collect();
            let start = Instant::now();
            thread::scope(|scope| {
                for _ in 0..threads {
                    scope.spawn(|| ask_often(&shards, REQUESTS / threads, keys));
                }
            });
            println!("{keys} {threads} {REQUESTS} {}", start.elapsed().as_nanos());
        }
    }
}
