//! The same pushes in Rust: 400,000 posts with 8 bytes each, that threads put into a `Mutex<Vec<Post>>`. It prints the number of
//! threads and the nanoseconds of one post, the best of several times.
use std::sync::{Arc, Mutex};
use std::time::{Duration, Instant};

const POSTS: u32 = 400_000;
const TIMES: u32 = 7;

#[allow(dead_code)]
enum To {
    Book,
    Home,
    All,
    Node(u8),
}

#[allow(dead_code)]
struct Post {
    from: u8,
    actor: u8,
    to: To,
    bytes: Arc<Vec<u8>>,
}

struct Vote {
    epoch: u8,
    value: Arc<Vec<u8>>,
}

/// The bytes of a proposal: its kind, its epoch, the length of its value, and the value.
fn spell(vote: &Vote) -> Arc<Vec<u8>> {
    let mut bytes = Vec::new();
    bytes.push(0x10);
    bytes.push(vote.epoch);
    bytes.extend_from_slice(&(vote.value.len() as u32).to_be_bytes());
    bytes.extend_from_slice(&vote.value);
    Arc::new(bytes)
}

fn post(book: &Mutex<Vec<Post>>, from: u8, vote: &Vote) -> usize {
    let bytes = spell(vote);
    let mut posts = book.lock().unwrap();
    posts.push(Post { from, actor: 5, to: To::Home, bytes });
    posts.len()
}

fn time(threads: u32) -> Duration {
    let book = Mutex::new(Vec::new());
    let vote = Vote { epoch: 0, value: Arc::new(vec![0, 0]) };
    let start = Instant::now();
    std::thread::scope(|scope| {
        for from in 1..threads {
            let (book, vote) = (&book, &vote);
            scope.spawn(move || {
                for _ in 0..POSTS / threads {
                    std::hint::black_box(post(book, from as u8, vote));
                }
            });
        }
        for _ in 0..POSTS / threads {
            std::hint::black_box(post(&book, 0, &vote));
        }
    });
    let time = start.elapsed();
    assert_eq!(book.lock().unwrap().len(), POSTS as usize);
    time
}

fn main() {
    for threads in [1, 2, 4] {
        let best = (0..TIMES).map(|_| time(threads)).min().unwrap();
        println!("{threads} {}", best.as_nanos() / POSTS as u128);
    }
}
