// Printed by rust/erase from crates/offset_pictures/src/style.rt: change it there.

//! The fixed parts of the picture. They are constants.

/// What comes before the title.
pub const OPENING: &str =
    "<svg xmlns='http://www.w3.org/2000/svg' width='1200' height='840' viewBox='0 0 1200 840' role='graphics-document document'>
<title>";

/// The colours, for light and for dark backgrounds, and the background itself.
pub const STYLE: &str = "<style>
text{font:14px sans-serif;fill:#1f2328}
.big{font-size:18px;font-weight:bold}.figures{font-size:16px}.end{text-anchor:end}.middle{text-anchor:middle}
.back{fill:#fff}.out{fill:#d8dee4}.grid{stroke:#d8dee4}.tick{stroke:#57606a}.refusal{stroke:#b00020;stroke-width:2}
.why{fill:none;pointer-events:all}.edge{stroke:#fff;stroke-width:.7}
.free{fill:#e3dfd2;stroke:#6e6a5c}.joined{fill:#f4c27a;stroke:#b35900}.most{fill:#cfe3f7;stroke:#1f5fae}
.age1{fill:#a88810}.age2{fill:#b86850}.age3{fill:#b83058}.age4{fill:#903870}
.age5{fill:#5038a8}.age6{fill:#382868}.age7{fill:#002838}.age8{fill:#001010}
@media (prefers-color-scheme:dark){
text{fill:#e6edf3}
.back{fill:#0d1117}.out{fill:#30363d}.grid{stroke:#30363d}.tick{stroke:#8b949e}.refusal{stroke:#ff7b80}
.edge{stroke:#0d1117}
.free{fill:#403d33;stroke:#aaa594}.joined{fill:#8a5a1c;stroke:#f0a04b}.most{fill:#16324f;stroke:#6cb0f5}
.age1{fill:#f8f0c0}.age2{fill:#f8d878}.age3{fill:#f8b098}.age4{fill:#f08098}
.age5{fill:#c080b0}.age6{fill:#9870e8}.age7{fill:#6870a8}.age8{fill:#007078}
}
</style>
<rect class='back' width='1200' height='840'/>
";
