//! Two clients sell from one stock. The second has a conflict and tries again; the first listens to the sales.
use mdsal::Broker;
use std::error::Error;

const STOCK: &str = r#""config","/depot:depot/stock""#;

/// Begins a transaction in slot 0, and returns the stock that it sees.
fn begin(broker: &mut Broker, client: u32) -> Result<u32, Box<dyn Error>> {
    broker.step(client, r#"["begin",0,0,"rw"]"#)?;
    let reply = broker.step(client, format!(r#"["read",0,{STOCK}]"#))?;
    Ok(reply.trim_start_matches("data ").parse()?)
}

/// Takes one from the stock in the transaction of slot 0, and returns the outcome.
fn sell(broker: &mut Broker, client: u32, stock: u32) -> Result<String, mdsal::Error> {
    broker.step(client, format!(r#"["put",0,{STOCK},{}]"#, stock - 1))?;
    broker.step(client, r#"["submit",0]"#)?;
    let outcome = broker.step(client, r#"["settle",0]"#)?;
    println!("{client}: {outcome}");
    Ok(outcome)
}

fn main() -> Result<(), Box<dyn Error>> {
    let path = std::env::args().nth(1).ok_or("usage: two_clients SCRIPT")?;
    let mut broker = Broker::open(std::fs::read(path)?)?;
    broker.step(0, format!(r#"["listen",0,0,{STOCK}]"#))?;
    let first = begin(&mut broker, 0)?;
    let mut second = begin(&mut broker, 1)?;
    sell(&mut broker, 0, first)?;
    while sell(&mut broker, 1, second)?.starts_with("conflict ") {
        second = begin(&mut broker, 1)?;
    }
    println!("0: {}", broker.step(0, r#"["take",0]"#)?);
    print!("{}", broker.report()?);
    Ok(())
}
