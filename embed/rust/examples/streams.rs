//! Frames, an epoch and a stand-by that leads. The frames are those of docs/FORMATS.md, "Frames", written by hand.
use mdsal::{Broker, Error, Outcome, StandBy, Store, Waiting};

const OPENING: &str = "00000041\n{\"commit\":0,\"config\":[],\"operational\":[]}\n";
const FIRST: &str = "00000052\n{\"commit\":1,\"config\":[[[0,1],\"x\"]],\"operational\":[]}\n";
const SECOND: &str = "00000052\n{\"commit\":2,\"config\":[[[0,1],\"y\"]],\"operational\":[]}\n";
const PATH: &str = "/plain:box/a";

/// Puts the text in a transaction of client 0.
fn put(broker: &mut Broker, text: &str) -> Result<Outcome, Error> {
    let step = format!(r#"["put",0,"config","{PATH}","{text}"]"#);
    let (_, outcome) = broker.update(0, |it| it.made(0, &step))?;
    Ok(outcome)
}

/// A transaction of client 1 that another one overtakes: it is a conflict, and `update` makes it again.
fn overtaken(broker: &mut Broker) -> Result<(), Error> {
    let mut turns = 0;
    let (seen, outcome) = broker.update(1, |it| {
        let seen = it.made(1, format!(r#"["read",0,"config","{PATH}"]"#))?;
        turns += 1;
        if turns == 1 {
            assert_eq!(put(it, "y")?, Outcome::Done { commit: 2 });
        }
        it.made(1, format!(r#"["put",0,"config","{PATH}","y"]"#))?;
        Ok(seen)
    })?;
    assert_eq!((turns, seen.as_str()), (2, r#"data "y""#));
    assert_eq!(outcome, Outcome::Done { commit: 3 });
    Ok(())
}

fn led(mut standby: StandBy) -> Result<Broker, Error> {
    assert_eq!(
        standby.feed(FIRST),
        Err(Error::BadStream("bad stream gap 3 1\n".to_owned()))
    );
    let (standby, error) = standby.lead(1).err().expect("the script has no version 1");
    assert_eq!(error, Error::BadVersion);
    standby.lead(0).map_err(|(_, error)| error)
}

const DEVICE: &str = r#"{"devices":[{"modules":["module d { namespace 'urn:d'; prefix d; leaf n { type string; } }"],"config":{"d:n":"x"}}]}"#;
const DEVICE_OPENING: &str =
    "00000050\n{\"commit\":0,\"config\":[[[0],\"x\"]],\"operational\":[]}\n";

/// A stand-by of a broker with a device has its trees too, and goes on with the numbers of both domains.
fn with_a_device() -> Result<(), Error> {
    let mut broker = Broker::open(DEVICE)?;
    assert_eq!(put(&mut broker, "x")?, Outcome::Done { commit: 1 });
    assert_eq!(broker.numbers(), [1, 0]);
    assert_eq!(broker.snapshot_of(1)?, DEVICE_OPENING.as_bytes());
    assert_eq!(broker.frames_of(2, 0), Err(Error::BadDomain));
    assert_eq!(broker.epoch_of(&[1, 1]), Err(Error::NotNewest));
    let mut standby = StandBy::open_of(DEVICE, &[1, 0])?;
    standby.feed_of(0, broker.snapshot_of(0)?)?;
    standby.feed_of(1, broker.snapshot_of(1)?)?;
    broker.epoch_of(&[1, 0])?;
    assert_eq!(standby.look_of(1, Store::Config, "/d:n")?, "data \"x\"");
    let mut leader = standby.lead(0).map_err(|(_, error)| error)?;
    assert_eq!(leader.numbers(), [1, 0]);
    assert_eq!(leader.look_of(1, Store::Config, "/d:n")?, "data \"x\"");
    Ok(())
}

/// Steps in one call: all replies, or those before the one that is not made.
fn batches() -> Result<(), Error> {
    let mut broker = Broker::open("{}")?;
    let told = broker.steps(0, [r#"["mark",9]"#, r#"["after",9]"#]);
    assert_eq!(told, Ok(vec!["ok".to_owned(), "found".to_owned()]));
    let told = broker.steps(0, [r#"["after",9]"#, r#"["no-step"]"#, r#"["mark",8]"#]);
    assert_eq!(told, Err((vec!["found".to_owned()], Error::BadStep)));
    assert_eq!(broker.step(0, r#"["after",8]"#)?, "late");
    Ok(())
}

/// A poll takes what waits; in vain it adds nothing to the log.
fn polled() -> Result<(), Error> {
    let mut broker = Broker::open("{}")?;
    broker.made(1, r#"["listen",3,0,"config","/plain:box"]"#)?;
    let left = broker.left();
    assert_eq!(broker.waits(1, 3), Waiting::default());
    assert_eq!(broker.changes(1, 3)?, None);
    assert_eq!(
        (broker.request(1, 3)?, broker.notifications(1)?),
        (None, None)
    );
    assert_eq!(broker.left(), left);
    assert_eq!(put(&mut broker, "x")?, Outcome::Done { commit: 1 });
    let (at_listener, at_receipt) = (broker.waits(1, 3), broker.waits(0, 0));
    assert!(at_listener.changes && !at_listener.decided && at_receipt.decided && at_receipt.any());
    let batch = broker.changes(1, 3)?.expect("changes wait");
    assert!(batch.starts_with("batch 0 1 "), "{batch}");
    assert!(!broker.waits(1, 3).any());
    Ok(())
}

fn main() -> Result<(), Error> {
    with_a_device()?;
    batches()?;
    polled()?;
    let mut broker = Broker::open("{}")?;
    let mut standby = StandBy::open("{}", 0)?;
    assert_eq!(standby.snapshot(), Err(Error::Empty));
    assert_eq!(broker.snapshot()?, OPENING.as_bytes());
    standby.feed(broker.snapshot()?)?;
    assert_eq!(put(&mut broker, "x")?, Outcome::Done { commit: 1 });
    overtaken(&mut broker)?;
    assert!(
        broker
            .frames(0)?
            .starts_with([FIRST, SECOND].concat().as_bytes())
    );
    standby.feed([FIRST, SECOND].concat())?;
    assert_eq!(
        (standby.number(), broker.number(), broker.left()),
        (2, 3, 1000000 - 12)
    );
    assert_eq!(standby.look(Store::Config, PATH)?, r#"data "y""#);
    assert_eq!(broker.look(Store::Operational, PATH)?, "absent");
    assert_eq!(broker.epoch(2), Err(Error::NotNewest));
    broker.epoch(3)?;
    assert_eq!(broker.frames(2), Err(Error::Gone));
    assert!(matches!(
        broker.made(0, r#"["submit",0]"#),
        Err(Error::Refused(_))
    ));
    let mut leader = led(standby)?;
    assert_eq!(
        (leader.number(), leader.version(), leader.left()),
        (2, 0, 1000000)
    );
    put(&mut leader, "z")?;
    assert_eq!(leader.number(), 3);
    println!("streams: ok");
    Ok(())
}
