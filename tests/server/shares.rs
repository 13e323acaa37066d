//! A share to put into stores.
ghost use Rattle.std.specs.Prelude.{◌≡◌, ◌<◌, length, replicate, IfOk};
ghost use Rattle.std.specs.Rc.{rc_slice_items};

use std::alloc::{AllocError, Global};
use std::rc::RcSlice;

/// A share of three bytes. Refused only where memory is.
pub fn share(alloc: Global) -> Result<RcSlice<u8>, AllocError>
    ensures bytes { IfOk result (λ share. rc_slice_items share ≡ replicate 3 9) }
    ensures some { IfOk result (λ share. 0 < length (rc_slice_items share)) }
{
    RcSlice::from_vec(vec![in alloc; 9u8; 3usize]?)
}
