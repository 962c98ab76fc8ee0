//! transfer SETUP STEPS: makes the steps of a file and prints their answers, as `argus steps` does.
use argus::{Fault, World};
use std::{env, error::Error, fs};

fn mistakes(setup: &[u8]) -> Result<(), Fault> {
    assert_eq!(World::open(b"{").err(), Some(Fault::Bad));
    let mut world = World::open(setup)?;
    assert_eq!(world.base((9, 9))?, None);
    assert_eq!(world.step(b"top \xff"), Err(Fault::Bad));
    assert_eq!(world.commit("1."), Err(Fault::Bad));
    assert_eq!(world.top(1)?, "began 1");
    assert_eq!(world.call("1", 1)?, "began 1.1");
    assert_eq!(world.op("1.1", (1, 1), "get balance")?, "granted 100");
    assert_eq!(world.commit("1.1")?, "done 0");
    assert_eq!(world.tell(1, "1.1")?, "done 1");
    assert_eq!(world.close_top("1")?, "done 0");
    assert_eq!(world.prepare(1, "1")?, "vote yes");
    assert_eq!(world.decide("1")?, "done 0");
    Ok(())
}

fn main() -> Result<(), Box<dyn Error>> {
    let words: Vec<String> = env::args().collect();
    let setup = fs::read(&words[1])?;
    mistakes(&setup)?;
    let mut world = World::open(&setup)?;
    for line in fs::read_to_string(&words[2])?.lines() {
        println!("{}", world.step(line.as_bytes())?);
    }
    assert_eq!(world.base((1, 1))?.as_deref(), Some(r#"{"record":{"balance":70}}"#));
    Ok(())
}
