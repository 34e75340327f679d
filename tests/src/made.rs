//! Calls by what they are asked with: in the order of their arguments, or by their kind.

use crate::{call::Call, handle::HandleBytes, handle::Password, listed};

/// What any call may be asked with.
#[derive(Clone, Debug, Default)]
pub struct Fields {
    pub node: u32,
    pub local: u32,
    pub width: usize,
    pub segment: u32,
    pub size: u32,
    pub mask: u16,
    pub mode: u32,
    pub handle: HandleBytes,
    pub other: HandleBytes,
    pub read: Password,
    pub write: Password,
    pub password: Password,
}

macro_rules! calls {
    ($($name:ident: $call:ident($($field:ident: $kind:ty),*);)*) => {
        listed! {
            /// The calls in the order of their codes; a look and validation have none.
            pub enum Kind { $($call),* }
        }

        impl Fields {
            /// The call of this kind, with those of the fields that it takes.
            pub fn call(&self, kind: Kind) -> Call {
                match kind { $(Kind::$call => Call::$call { $($field: self.$field.clone()),* }),* }
            }
        }

        impl Call {
            pub fn kind(&self) -> Kind {
                match self { $(Call::$call { .. } => Kind::$call),* }
            }

            $(pub fn $name($($field: $kind),*) -> Call {
                Call::$call { $($field: $field.into()),* }
            })*
        }
    };
}

calls! {
    new_cluster: NewCluster(node: u32, local: u32, width: usize, read: Password, write: Password);
    delete_cluster: DeleteCluster(node: u32, handle: impl Into<HandleBytes>);
    new_segment: NewSegment(node: u32, segment: u32, size: u32, handle: impl Into<HandleBytes>);
    delete_segment: DeleteSegment(node: u32, segment: u32, handle: impl Into<HandleBytes>);
    read: Read(segment: u32, handle: impl Into<HandleBytes>);
    write: Write(segment: u32, handle: impl Into<HandleBytes>);
    weaken: Weaken(mask: u16, handle: impl Into<HandleBytes>);
    reduce: Reduce(mode: u32, handle: impl Into<HandleBytes>);
    new_password: NewPassword(mode: u32, handle: impl Into<HandleBytes>, password: Password);
    freeze: Freeze(node: u32, segment: u32, handle: impl Into<HandleBytes>);
    join: Join(mode: u32, handle: impl Into<HandleBytes>, other: impl Into<HandleBytes>);
    look: Look(node: u32, segment: u32, handle: impl Into<HandleBytes>);
    validate: Validate(mode: u32, handle: impl Into<HandleBytes>);
}
