//! Lent room between guards.

const GUARDS: usize = 5;

/// What a call gives, and the room after it; with the guards where one of them changed, so that it is too long.
pub fn guarded<T: Copy + PartialEq, R>(
    guard: T,
    room: &[T],
    call: impl FnOnce(&mut [T]) -> R,
) -> (R, Vec<T>) {
    let guards = [guard; GUARDS];
    let mut lent = [&guards, room, &guards].concat();
    let end = GUARDS + room.len();
    let result = call(&mut lent[GUARDS..end]);
    if lent.starts_with(&guards) && lent.ends_with(&guards) {
        lent = lent[GUARDS..end].to_vec();
    }
    (result, lent)
}
