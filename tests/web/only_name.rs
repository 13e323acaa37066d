//! A path of one name.
ghost use Rattle.std.specs.Prelude.{◌≡◌, [], ◌∷◌, IfOk};

use octets::Text;
use path_walk::Names;
use std::alloc::{AllocError, Global};

/// The path to the child of this name. Refused only where memory is.
pub fn only_name(alloc: Global, name: &str) -> Result<Names, AllocError>
    ensures { IfOk result (λ names. names ≡ name.now ∷ []) }
{
    let mut names = Vec::new(alloc);
    names.push(Text::from_string(String::from_str(alloc, name)?))?;
    Ok(Names::from_vec(names))
}
