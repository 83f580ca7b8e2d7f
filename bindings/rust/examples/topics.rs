//! Topics by name: a shop takes orders, which workers share, and reports each to an archive and to the accounts.
use std::error::Error;
use std::thread;
use vahepito::Broker;

const ORDERS: u64 = 10_000;

fn main() -> Result<(), Box<dyn Error>> {
    let broker = Broker::<u64>::open(&[("orders", Some(64), 1), ("done", None, 2)])?;
    let topic = |name| broker.topic(name).ok_or("there is no such topic");
    let (orders, _) = topic("orders")?;
    let mut workers = vec![];
    for _ in 0..4 {
        let ((_, takes), (done, _)) = (topic("orders")?, topic("done")?);
        workers.push(thread::spawn(move || {
            takes[0].iter().try_for_each(|order| done.send(2 * order))
        }));
    }
    let (_, services) = topic("done")?;
    drop(broker); // so the last sender of a topic closes it
    for order in 1..=ORDERS {
        orders.send(order)?;
    }
    drop(orders);
    for worker in workers {
        worker.join().expect("the worker ends")?;
    }
    let [archive, accounts] = &services[..] else {
        return Err("the topic has two groups".into());
    };
    println!(
        "{} orders in the archive, {} in the accounts",
        archive.iter().count(),
        accounts.iter().sum::<u64>()
    );
    Ok(())
}
