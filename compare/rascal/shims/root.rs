pub mod internal;

/// Only the class entry point looks at it.
pub struct CompileOptions {
    pub swf_version: u8,
}
