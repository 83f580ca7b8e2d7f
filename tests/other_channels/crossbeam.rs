//! crossbeam-channel's names over vahepito: what its tests call.
pub use vahepito::select as crossbeam_channel_internal;
pub use vahepito::*;
