//! Stock and sales of a shop: `cargo run --example shop ramp://127.0.0.1:7000/t`.

use ramp_client::{tagged, Config, Error, Retry, Write};
use std::time::Duration;

fn main() -> Result<(), Error> {
    let url = std::env::args().nth(1).unwrap_or_else(|| "ramp://127.0.0.1:7000/t".into());
    let pool = Config::new(&url)?
        .timeout(Duration::from_secs(1)) // of each answer; 5 seconds by default
        .retry(Retry { attempts: 4, ..Retry::default() })
        .pool(8); // at most 8 sessions, for any number of threads

    pool.put(tagged("shop", [("stock", "7"), ("sold", "1")]))?; // both or none
    let items = pool.get(&["stock", "sold"])?; // atomically
    assert_eq!(items[0].stamp, items[1].stamp);
    for item in pool.find("shop")? {
        println!("{} {}", item.key, item.value.unwrap_or_default());
    }

    let mut session = pool.take()?; // a session for this thread alone
    let mut pipeline = session.pipeline(); // calls that are sent together
    pipeline.put([Write::new("stock", "6").tagged("shop"), Write::new("sold", "2").tagged("shop")])?.get(&["stock"])?;
    for answer in pipeline.run() {
        println!("{:?}", answer?);
    }
    Ok(())
}
