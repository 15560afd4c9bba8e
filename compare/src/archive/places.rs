//! Places that are lent to a call: bytes stand on both sides of each, and a call that touches them is seen.

const GUARD: [u8; 64] = [0x5A; 64];
/// No multiple of anything, because a buffer needs no alignment.
const FRONT: usize = 61;

#[repr(C)]
struct Guarded<Value> {
    before: [u8; 64],
    value: Value,
    after: [u8; 64],
}

/// What a call gives, and what it leaves in its place.
pub fn lent<Value: Copy, Given>(
    value: Value,
    call: impl FnOnce(*mut Value) -> Given,
) -> Result<(Given, Value), String> {
    let mut place = Guarded {
        before: GUARD,
        value,
        after: GUARD,
    };
    // Through a pointer to all of it, so that the compiler expects a change beside the value too.
    let whole = &raw mut place;
    // SAFETY: the place is there.
    let given = call(unsafe { &raw mut (*whole).value });
    if place.before != GUARD || place.after != GUARD {
        return Err("a byte beside the lent place was changed".to_string());
    }
    Ok((given, place.value))
}

/// As `lent`, where the call may only read.
pub fn shown<Value: Copy + PartialEq, Given>(
    value: Value,
    call: impl FnOnce(*const Value) -> Given,
) -> Result<Given, String> {
    let (given, left) = lent(value, |place| call(place.cast_const()))?;
    if left != value {
        return Err("what may only be read was changed".to_string());
    }
    Ok(given)
}

/// As `lent`, for bytes.
pub fn lent_bytes<Given>(
    bytes: &[u8],
    call: impl FnOnce(*mut u8) -> Given,
) -> Result<(Given, Vec<u8>), String> {
    let mut place = [&GUARD[..FRONT], bytes, &GUARD].concat();
    let given = call(place.as_mut_ptr().wrapping_add(FRONT));
    let after = place.split_off(FRONT + bytes.len());
    let left = place.split_off(FRONT);
    if place != GUARD[..FRONT] || after != GUARD {
        return Err("a byte beside the lent buffer was changed".to_string());
    }
    Ok((given, left))
}
