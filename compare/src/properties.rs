//! Names of properties, and names that are nearly one.

/// In the order of their numbers.
pub const PROPERTIES: [&str; 22] = [
    "_x",
    "_y",
    "_xscale",
    "_yscale",
    "_currentframe",
    "_totalframes",
    "_alpha",
    "_visible",
    "_width",
    "_height",
    "_rotation",
    "_target",
    "_framesloaded",
    "_name",
    "_droptarget",
    "_url",
    "_highquality",
    "_focusrect",
    "_soundbuftime",
    "_quality",
    "_xmouse",
    "_ymouse",
];

/// No properties, but they begin as one, or differ by an underscore or a space.
pub const NEARLY: [&str; 7] = ["x", "_xx", "_xs", "_xscal", "_xscale_", " _x", "_x "];
