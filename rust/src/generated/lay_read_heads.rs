//! Made by scripts/rust.sh from crates/lay_read_heads/src/lib.rt, which is proved: change that.
//!
//! The public readers of visibilities, use trees, and the heads of items: functions, constants,
//! traits, implementations, and the items that consist of a head alone.
//!
//! Each reads exactly what the next tokens spell, by the rules of `lay_read_head_rules`.
mod kinds;
mod reads;
pub use kinds::{read_alias, read_enum, read_extern_crate, read_struct};
pub use crate::generated::lay_read_tokens::{ReadNone, read_attr, read_attrs, read_call};
pub use reads::{
    read_fn_head,
    read_impl_head,
    read_trait_head,
    read_use,
    read_value_head,
    read_vis,
};
