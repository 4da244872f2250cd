//! What a session answers, and where its errors are.
use falkirk::{Fault, Session};
use std::collections::BTreeMap;

const FLOW: &str = "node a input\nnode b output epoch\nedge c a b\n";

#[test]
fn lines_are_answered() -> Result<(), Fault> {
    let mut session = Session::open(FLOW, true)?;
    assert_eq!(session.ask(b"batch a 1:2 3:4")?, b"fed a 0\nack b epoch 0 1:2 3:4\ndone 5\n");
    assert_eq!(session.ask(b"")?, b"done 0\n");
    assert_eq!(session.ask(b"\0\xff")?, b"refused S1 line 3\n");
    assert_eq!(session.ask(&[b'#'; 1 << 21])?, b"refused L1 line 4\n");
    Ok(())
}

#[test]
fn a_flow_is_refused() {
    assert_eq!(Session::open("node a\n", true).err(), Some(Fault::Refused("refused F1 line 1".to_string())));
}

#[test]
fn a_session_goes_to_another_thread() -> Result<(), Fault> {
    let mut one = Session::open(FLOW, true)?;
    let mut other = Session::open(FLOW, true)?;
    one.ask(b"batch a 1:1")?;
    let thread = std::thread::spawn(move || one.ask(b"batch a 2:2").map(<[u8]>::to_vec));
    assert_eq!(other.ask(b"batch a 3:3")?, b"fed a 0\nack b epoch 0 3:3\ndone 4\n");
    assert_eq!(thread.join().unwrap()?, b"fed a 1\nack b epoch 1 2:2\ndone 4\n");
    Ok(())
}

#[test]
fn a_session_goes_on_from_what_was_kept() -> Result<(), Fault> {
    let mut kept = BTreeMap::new();
    for (epoch, told) in [(0, ""), (1, "ack b epoch 0 5:0\n"), (2, "ack b epoch 1 5:1\n")] {
        let mut session = Session::open_from(&kept, FLOW, true)?;
        session.write_to(&mut kept);
        assert_eq!(session.answer().ends_with(told.as_bytes()), true);
        let answer = session.ask(format!("batch a 5:{epoch}").as_bytes())?.to_vec();
        assert_eq!(answer, format!("fed a {epoch}\nack b epoch {epoch} 5:{epoch}\ndone 4\n").into_bytes());
        session.write_to(&mut kept);
    }
    let other = FLOW.replace('b', "d");
    assert_eq!(Session::open_from(&kept, &other, true).err(), Some(Fault::Records));
    Ok(())
}
