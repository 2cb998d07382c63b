//! What the Rust's modules use of the rest of their crate.
// only some of the fields are looked at
#[allow(dead_code)]
pub mod error;
pub mod float_ext;

// A record without its bindings to other languages: the plain struct.
macro_rules! binding_record {
    (
        $(#[$of_struct:meta])*
        pub struct $name:ident {
            $($(#[$of_field:meta])* $(@[$binding:ident])? pub $field:ident: $type:ty,)*
        }
    ) => {
        $(#[$of_struct])*
        pub struct $name {
            $($(#[$of_field])* pub $field: $type,)*
        }
    };
}
pub(crate) use binding_record;
