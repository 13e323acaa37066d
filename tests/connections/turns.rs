//! Whose turn it is, where there is memory.

use gate_turns::Turns;
use std::test::Fail;

#[test]
fn a_connection_is_taken_in_while_there_is_room(rt: HostRuntime) -> Result<(), Fail> {
    let mut turns = Turns::new(rt.alloc(), 2)?;
    assert!(rt; turns.open(1, 0, 2));
    assert!(rt; turns.open(2, 0, 2));
    assert!(rt; !turns.open(3, 1, 2));
    assert_eq!(rt; turns.len(), 2);
    Ok(())
}
