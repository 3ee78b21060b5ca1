//! Which handler command uses which permission (02, S-7).

use crate::table::{CALL, GET, PLUS, PUT, READ, WRITE};

/// The handler command that uses a permission, with its operand; GET for PLUS as well.
pub fn use_of(permission: &[u8]) -> [u8; 2] {
    let byte = match permission[0] {
        READ => GET,
        WRITE => PUT,
        _ => CALL,
    };
    [byte, permission[2]]
}

/// What a handler command uses, as `use_of` writes it.
pub fn used(command: &[u8]) -> Option<[u8; 2]> {
    match *command {
        [GET | PLUS, variable] => Some([GET, variable]),
        [byte @ (PUT | CALL), number] => Some([byte, number]),
        _ => None,
    }
}
