//! The functions under test, linked.

mod calls;
mod header;
mod places;

use crate::states::request::Request;
use crate::states::Told;

/// 0, or the refusal number that the archive gives.
pub fn check_image(image: &[u8]) -> u32 {
    // SAFETY: a slice's pointer is never NULL, its bytes can all be read, and while it is borrowed
    // no one changes them.
    unsafe { header::lomvadric_check_image(image.as_ptr(), image.len()) }
}

/// What the archive's functions answer to the requests; an error is a byte that no call may change.
pub fn told(requests: &[Request], most: usize) -> Result<Told, String> {
    let mut output = Vec::with_capacity(most);
    for (place, request) in requests.iter().enumerate() {
        let failed = |reason| format!("request {place}: {request}\n{reason}");
        calls::answers(request).map_err(failed)?.tell(&mut output);
    }
    Ok(Told {
        output,
        failure: None,
    })
}
