//! Types as numbers, so that equal types are equal numbers: what is stored in cells is a bool, an int, or a block of blocks of .. of them.

use std::collections::HashMap;

use crate::hash::Quick;
use crate::MOST_LEVELS;

pub type Type = u32;
pub const BOOL: Type = 0;
pub const INT: Type = 1;
/// A block's type has the number of its elements' and this much more.
const BLOCK: Type = 2;
/// The function types have the numbers from here on: blocks are nested no deeper than levels are.
const FIRST_FUNCTION: Type = BLOCK * (MOST_LEVELS + 1);
/// On top of the type of what is passed by address.
pub const BY_ADDRESS: Type = 1 << 31;

/// The function types so far, each as its parameters and then its result.
#[derive(Default)]
pub struct Types {
    numbers: HashMap<Box<[Type]>, Type, Quick>,
    parts: Vec<Box<[Type]>>,
}

impl Types {
    pub fn clear(&mut self) {
        self.numbers.clear();
        self.parts.clear();
    }

    pub fn function(&mut self, parts: &[Type]) -> Type {
        if let Some(known) = self.numbers.get(parts) {
            return *known;
        }
        let fresh = FIRST_FUNCTION + self.parts.len() as Type;
        self.numbers.insert(parts.into(), fresh);
        self.parts.push(parts.into());
        fresh
    }

    /// A function type's result and parameters; none of another type.
    pub fn result_and_params(&self, of: Type) -> Option<(&Type, &[Type])> {
        self.parts.get(of.checked_sub(FIRST_FUNCTION)? as usize)?.split_last()
    }
}

/// Whether variables may have the type.
pub fn is_plain(t: Type) -> bool {
    t < BLOCK
}

/// Whether a block's elements may have the type.
pub fn is_element(t: Type) -> bool {
    t < FIRST_FUNCTION
}

/// The type of blocks with elements of this one, which they may have.
pub fn block_of(element: Type) -> Type {
    element + BLOCK
}

/// The type of a block's elements; none of another type.
pub fn element_of(t: Type) -> Option<Type> {
    t.checked_sub(BLOCK).filter(|_| is_element(t))
}
